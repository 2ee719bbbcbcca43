//! The published samples with their published answers, asked of library and reader.

use super::answers::{Element, Opened, Part};
use super::calls::Call;
use super::questions::{Answer, Question};
use super::reader::{Carried, Entry, Tag};
use super::{samples, Abif};
use crate::answers::{Found, Verdict, Written};
use crate::groups::published::{expect, expect_lines, expect_verdict};
use crate::report::Group;

const ABCD_1: Tag = Tag::new(b"ABCD", 1);
const ABCD_2: Tag = Tag::new(b"ABCD", 2);
const TWO_SHORTS: Found = Found {
    refusal: 0,
    type_code: 4,
    count: 2,
    start: 148,
    length: 4,
};
const OPENED: Carried = Carried {
    place: 128,
    count: 1,
};

pub fn samples(group: &mut Group) {
    no_bytes(group);
    one_inline_item(group);
    listed_item(group);
    opened_item(group);
    three_shorts(group);
    month_thirteen(group);
    program_lines(group);
}

fn not_found(refusal: u64) -> Answer {
    Answer::Found(Found::refused(refusal))
}

fn no_element(refusal: u64) -> Answer {
    Answer::Element(Element {
        refusal,
        ..Element::default()
    })
}

fn lookup(tag: Tag) -> Question {
    Question::Plain(Call::Lookup(tag))
}

fn element(tag: Tag, index: u64) -> Question {
    Question::Plain(Call::Element { tag, index })
}

fn text(tag: Tag) -> Question {
    Question::Plain(Call::Text(tag))
}

fn no_bytes(group: &mut Group) {
    group.input();
    let opened = Opened {
        refusal: 1,
        ..Opened::default()
    };
    let part = Part {
        refusal: 1,
        ..Part::default()
    };
    expect_verdict::<Abif>(group, &[], Verdict::refused(1, 0));
    expect(group, &[], Question::Open, Answer::Opened(opened));
    expect(group, &[], lookup(ABCD_1), not_found(1));
    expect(group, &[], element(ABCD_1, 1), no_element(1));
    expect(group, &[], text(ABCD_1), Answer::Part(part));
    let list = Call::List { room: 1 };
    expect(group, &[], Question::Plain(list), list.refused(1));
    for call in [list, Call::Lookup(ABCD_1), Call::Text(ABCD_1)] {
        expect(group, &[], Question::Opened(OPENED, call), call.refused(1));
    }
}

fn one_inline_item(group: &mut Group) {
    group.input();
    let file = samples::one_inline_item();
    let opened = Opened {
        refusal: 0,
        place: 128,
        count: 1,
    };
    let second = Answer::Element(Element::whole(1, -2));
    expect_verdict::<Abif>(group, &file, Verdict::whole(156, 0));
    expect(group, &file, Question::Open, Answer::Opened(opened));
    expect(group, &file, lookup(ABCD_1), Answer::Found(TWO_SHORTS));
    expect(group, &file, element(ABCD_1, 2), second);
    expect(group, &file, element(ABCD_1, 3), no_element(12));
    expect(group, &file, lookup(ABCD_2), not_found(7));
    expect_verdict::<Abif>(group, &file[..155], Verdict::refused(1, 0));
    for (first, room, right) in [(1, 1, &[1][..]), (1, 2, &[1, -2]), (2, 3, &[-2])] {
        numbers(group, &file, (first, room), right);
    }
    for (first, room, refusal) in [(1, 0, 13), (0, 2, 12), (3, 0, 12)] {
        let refused = Answer::Numbers(Written::refused(refusal, room));
        expect(group, &file, whole_numbers(first, room), refused);
    }
}

fn whole_numbers(first: u64, room: usize) -> Question {
    let tag = ABCD_1;
    Question::WholeNumbers { tag, first, room }
}

// From a number on, in this room: these numbers and nothing behind them.
fn numbers(group: &mut Group, file: &[u8], (first, room): (u64, usize), right: &[i64]) {
    let answer = Answer::Numbers(Written::holding(room, right, right.len()));
    expect(group, file, whole_numbers(first, room), answer);
}

// The one entry, for the bytes alone and for the opened file.
fn listed_item(group: &mut Group) {
    group.input();
    let file = samples::one_inline_item();
    let entry = Entry {
        tag: ABCD_1,
        type_code: 4,
        element_size: 2,
        count: 2,
        data_size: 4,
        data_offset: 0x0001_FFFE,
        data_handle: 0,
    };
    let call = Call::List { room: 2 };
    let full = Call::List { room: 0 };
    let listed = Answer::Entries(Written::holding(2, &[entry], 1));
    for asked in [Question::Plain, |call| Question::Opened(OPENED, call)] {
        expect(group, &file, asked(call), listed.clone());
        expect(group, &file, asked(full), full.refused(13));
        expect(group, &file[..155], asked(call), call.refused(1));
        expect(group, &file[..155], asked(full), full.refused(1));
    }
}

// What lookup, element and text answer stays, and another place or count is refused before it.
fn opened_item(group: &mut Group) {
    group.input();
    let file = samples::one_inline_item();
    let second = Call::Element {
        tag: ABCD_1,
        index: 2,
    };
    let third = Call::Element {
        tag: ABCD_1,
        index: 3,
    };
    let calls = [
        (Call::Lookup(ABCD_1), Answer::Found(TWO_SHORTS)),
        (Call::Lookup(ABCD_2), not_found(7)),
        (second, Answer::Element(Element::whole(1, -2))),
        (third, no_element(12)),
        (Call::Text(ABCD_1), Call::Text(ABCD_1).refused(10)),
    ];
    for (call, answer) in calls {
        expect(group, &file, Question::Opened(OPENED, call), answer);
        for (place, count) in [(127, 1), (128, 0), (128, 2), (1, 128), (128 + (1 << 32), 1)] {
            let other = Carried { place, count };
            expect(group, &file, Question::Opened(other, call), call.refused(4));
        }
        expect(
            group,
            &file[..155],
            Question::Opened(OPENED, call),
            call.refused(1),
        );
    }
}

fn three_shorts(group: &mut Group) {
    group.input();
    let file = samples::one_item_at_an_offset();
    expect_verdict::<Abif>(group, &file, Verdict::whole(162, 0));
    expect_verdict::<Abif>(group, &file[..161], Verdict::refused(1, 1));
}

fn month_thirteen(group: &mut Group) {
    group.input();
    let file = samples::month_thirteen();
    expect_verdict::<Abif>(group, &file, Verdict::whole(156, 0));
    expect(group, &file, element(ABCD_1, 1), no_element(11));
}

fn program_lines(group: &mut Group) {
    let file = samples::one_inline_item();
    let printed = "ABIF whole 156 of 156 tail 0\nABCD 1 type 4 count 2 size 4 inline\n";
    expect_lines(group, &file, printed);
}
