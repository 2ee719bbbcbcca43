//! Directories listed: every entry's fields against its 28 bytes, whether they agree or not.

use super::calls::Call;
use super::draft::{Draft, Record};
use super::questions::{stated, Answer, Question};
use super::reader::{Entry, Tag};
use super::Abif;
use crate::answers::{Listed, Untouched};
use crate::format::{Files, Question as _};
use crate::random::Random;
use crate::report::Group;

const FILES: usize = 1000;
const MOST_ENTRIES: usize = 12;
const RECORDS_LEFT: usize = 3;
const ENTRIES_OF_A_LONG_FILE: usize = 999;

/// Random files, as they are and with any numbers in their entries, into every room.
pub fn rooms(group: &mut Group) {
    let mut random = Random::new(16);
    for _ in 0..FILES {
        let mut draft = Abif::random_file(&mut random, MOST_ENTRIES);
        in_every_room(group, &draft);
        for entry in &mut draft.entries {
            *entry = random_record(&mut random);
        }
        in_every_room(group, &draft);
    }
}

fn in_every_room(group: &mut Group, draft: &Draft) {
    group.input();
    let file = draft.bytes();
    for room in 0..=draft.entries.len() + RECORDS_LEFT {
        listed(group, draft, &file, room);
    }
}

/// Every number of 16 bits as a type and as an element size, beside random numbers of 32 bits.
pub fn fields(group: &mut Group) {
    let mut random = Random::new(17);
    let codes: Vec<u16> = (0..=u16::MAX).collect();
    for codes in codes.chunks(ENTRIES_OF_A_LONG_FILE) {
        let record = |&code: &u16| Record {
            type_code: code as i16,
            element_size: !code.swap_bytes() as i16,
            ..random_record(&mut random)
        };
        let entries: Vec<Record> = codes.iter().map(record).collect();
        let body = vec![0; 128 + 28 * entries.len()];
        let draft = Draft::new(128, entries, body);
        group.input();
        listed(group, &draft, &draft.bytes(), codes.len());
    }
}

// Fields at their bounds and any others.
fn random_record(random: &mut Random) -> Record {
    let mut number = || match random.below(6) {
        0 => random.pick(&[0, 1, -1, i32::MIN, i32::MAX]),
        1 => random.pick(&[0xFF, 0xFF00, 0x7FFF_0000, -0x8000, -0x0100_0000]),
        _ => random.next_u64() as i32,
    };
    Record {
        tag: Tag {
            name: number() as u32,
            number: number(),
        },
        type_code: number() as i16,
        element_size: number() as i16,
        count: number(),
        data_size: number(),
        offset: number().to_be_bytes(),
        handle: number(),
    }
}

// Sees for both sides, and for the opened file, that the records are the draft's entries, or that
// there are too few and nothing is changed.
fn listed(group: &mut Group, draft: &Draft, file: &[u8], room: usize) {
    let call = Call::List { room };
    for question in [Question::Plain(call), Question::Opened(stated(file), call)] {
        for answer in [question.ask_library(file), question.ask_reader(file)] {
            let right = if room < draft.entries.len() {
                answer == call.refused(13)
            } else {
                is_listing(&answer, draft, file)
            };
            group.check(right, file, || format!("{question:?}: {answer:?}"));
        }
    }
}

fn is_listing(answer: &Answer, draft: &Draft, file: &[u8]) -> bool {
    let Answer::Entries(written) = answer else {
        return false;
    };
    let count = draft.entries.len();
    let told = Listed {
        refusal: 0,
        count: count as u64,
    };
    let (entries, behind) = written.out.split_at(count);
    let directory = file[draft.place..].chunks_exact(28).take(count);
    let mut behind = (count..).zip(behind);
    written.listed == told
        && entries.iter().map(numbers).eq(directory.map(by_hand))
        && behind.all(|(place, record)| *record == Entry::untouched(place))
}

fn numbers(entry: &Entry) -> [i64; 8] {
    [
        entry.tag.name.into(),
        entry.tag.number.into(),
        entry.type_code.into(),
        entry.element_size.into(),
        entry.count.into(),
        entry.data_size.into(),
        entry.data_offset.into(),
        entry.data_handle.into(),
    ]
}

// The fields of an entry's 28 bytes, all of which but the name are signed.
fn by_hand(entry: &[u8]) -> [i64; 8] {
    let unsigned = |place: usize, width: usize| {
        let bytes = entry[place..place + width].iter();
        bytes.fold(0, |number, &byte| 256 * number + i64::from(byte))
    };
    let signed = |place, width| {
        let number = unsigned(place, width);
        let all = 256_i64.pow(width as u32);
        number - if number < all / 2 { 0 } else { all }
    };
    [
        unsigned(0, 4),
        signed(4, 4),
        signed(8, 2),
        signed(10, 2),
        signed(12, 4),
        signed(16, 4),
        signed(20, 4),
        signed(24, 4),
    ]
}
