//! Lists made for one rule each: types, sizes, rooms, tags, and the number of items.

use super::expect;
use super::generate::{sound_data, sound_list};
use super::list::List;
use crate::abif::draft::LISTED_CODES;
use crate::abif::generate::Content;
use crate::abif::reader::Tag;
use crate::abif::writer::{self, element_size};
use crate::abif::{library, samples};
use crate::answers::Finished;
use crate::output::Output;
use crate::random::Random;
use crate::report::Group;

const ROOM_LEFT: usize = 16;
const PAST_24_BITS: usize = (1 << 24) + 5;

fn shorts(numbers: &[u8]) -> Content {
    Content::listed(4, numbers.to_vec())
}

/// W2 from its item, a month 13, and no items at all, which give a header alone.
pub fn published(group: &mut Group) {
    one_inline_item(group);
    let date = Content::listed(10, vec![0x07, 0xD6, 13, 1]);
    expect(group, &List::numbered(vec![date]), 200, 11);
    for room in 0..=130 {
        let refusal = if room < 128 { 13 } else { 0 };
        expect(group, &List::default(), room, refusal);
    }
    let unused = List {
        data: vec![7; 100],
        ..List::default()
    };
    expect(group, &unused, 128, 0);
}

// W2's bytes, by the library and by the writer, in just the room that they take.
fn one_inline_item(group: &mut Group) {
    let list = List::numbered(vec![shorts(&[0x00, 0x01, 0xFF, 0xFE])]);
    expect(group, &list, 156, 0);
    expect(group, &list, 155, 13);
    let mut outputs = [Output::new(156), Output::new(156)];
    let [ours, plain] = &mut outputs;
    let answers = [
        library::write(&list.lent(), ours.lent()),
        writer::write(&list.lent(), plain.lent()).into(),
    ];
    let written = Finished {
        refusal: 0,
        length: 156,
    };
    for (answer, out) in answers.iter().zip(&mut outputs) {
        let same = *out.lent() == samples::one_inline_item() && out.is_untouched_from(156);
        group.check(same && *answer == written, out.bytes(), || {
            format!("not W2: {answer:?}")
        });
    }
}

/// Every type code there is, alone and behind another item.
pub fn type_codes(group: &mut Group) {
    let mut random = Random::new(63);
    for code in i16::MIN..=i16::MAX {
        let listed = LISTED_CODES.contains(&code);
        let refusal = if listed || code >= 1024 { 0 } else { 10 };
        let count = if listed { 3 } else { 6 };
        let content = Content::listed(code, sound_data(&mut random, code, count));
        let alone = List::numbered(vec![content.clone()]);
        expect(group, &alone, alone.file_length(), refusal);
        let behind = List::numbered(vec![shorts(&[1, 2, 3, 4, 5, 6]), content]);
        expect(group, &behind, behind.file_length() + ROOM_LEFT, refusal);
    }
}

/// Every small size and count of every type, between two other items.
pub fn small_sizes(group: &mut Group) {
    let mut random = Random::new(64);
    for code in LISTED_CODES.into_iter().chain([1024, 5000, i16::MAX]) {
        let size = element_size(code).unwrap_or(1);
        for count in 0..=12 {
            let data = sound_data(&mut random, code, count);
            let sound = Content::listed(code, data);
            let right = sound.data.len();
            let items = vec![shorts(&[9, 9]), sound.clone(), shorts(&[8; 6])];
            let list = List::numbered(items);
            expect(group, &list, list.file_length(), 0);
            for length in right.saturating_sub(size)..=right + size {
                let mut changed = list.clone();
                changed.lengths[1] = length as u64;
                let agrees = length == size * sound.count as usize;
                let lies_inside = list.starts[1] as usize + length <= list.data.len();
                let refusal = if agrees && lies_inside { 0 } else { 9 };
                expect(group, &changed, list.file_length() + ROOM_LEFT, refusal);
            }
        }
    }
}

/// Every room up to what the file needs, and a little more.
pub fn rooms(group: &mut Group) {
    let mut random = Random::new(65);
    for count in 0..=8 {
        let list = sound_list(&mut random, count);
        let exact = list.file_length();
        for room in 0..=exact + 3 {
            let refusal = if room < exact { 13 } else { 0 };
            expect(group, &list, room, refusal);
        }
    }
}

/// Every pair of tags at the bounds of names and numbers, behind a first item and alone.
pub fn tags(group: &mut Group) {
    let names = [
        0,
        1,
        0x4142_4344,
        0x4142_4345,
        0x4242_4344,
        0x7FFF_FFFF,
        0x8000_0000,
        u32::MAX,
    ];
    let numbers = [i32::MIN, -65_536, -2, -1, 0, 1, 2, 65_536, i32::MAX];
    let tags: Vec<Tag> = names
        .iter()
        .flat_map(|&name| numbers.map(|number| Tag { name, number }))
        .collect();
    let item = shorts(&[1, 2, 3, 4, 5, 6]);
    for (lower, first) in tags.iter().enumerate() {
        for (higher, second) in tags.iter().enumerate() {
            let list = List::of(&[(*first, item.clone()), (*second, item.clone())]);
            let refusal = if lower < higher { 0 } else { 14 };
            expect(group, &list, list.file_length(), refusal);
        }
    }
    let all: Vec<(Tag, Content)> = tags.iter().map(|tag| (*tag, item.clone())).collect();
    let list = List::of(&all);
    expect(group, &list, list.file_length(), 0);
    for index in 1..list.count() {
        let mut twice = list.clone();
        twice.set_tag(index, list.tag(index - 1));
        expect(group, &twice, list.file_length(), 14);
    }
}

fn many(count: usize) -> List {
    let item = [shorts(&[1, 2]), shorts(&[1, 2, 3, 4, 5, 6])];
    List::numbered((0..count).map(|index| item[index % 2].clone()).collect())
}

/// Numbers of items around the most and past 16 bits, then with other rules broken too.
pub fn item_counts(group: &mut Group) {
    for count in [
        1, 2, 255, 256, 257, 998, 999, 1000, 1001, 1255, 65_535, 65_536, 65_541,
    ] {
        let list = many(count);
        let refusal = if count > 999 { 5 } else { 0 };
        expect(group, &list, list.file_length(), refusal);
        if count > 999 {
            expect(group, &list, 0, 5);
        } else {
            expect(group, &list, list.file_length() - 1, 13);
        }
    }
    for count in [999, 1000] {
        for index in [0, 1, 500, count - 1] {
            let mut list = many(count);
            list.types[index] = 1023;
            expect(group, &list, list.file_length(), 10);
            list = many(count);
            list.counts[index] += 1;
            expect(group, &list, list.file_length(), 9);
            list = many(count);
            list.set_tag(index.max(1), list.tag(index.max(1) - 1));
            expect(group, &list, list.file_length(), 14);
        }
    }
}

/// Items of every type longer than 16 bits count, also before a refused one, and one past 24 bits.
pub fn long_items(group: &mut Group) {
    let mut random = Random::new(66);
    for code in LISTED_CODES.into_iter().chain([1024]) {
        for count in [16_384, 65_535, 65_536, 70_001] {
            let long = Content::listed(code, sound_data(&mut random, code, count));
            let mut list = List::numbered(vec![shorts(&[1, 2]), long, shorts(&[3; 6])]);
            let exact = list.file_length();
            expect(group, &list, exact, 0);
            expect(group, &list, exact - 1, 13);
            list.types[2] = 20;
            expect(group, &list, exact, 10);
        }
    }
    let long = Content::listed(1024, vec![0x5A; PAST_24_BITS]);
    let list = List::numbered(vec![long, shorts(&[3; 6])]);
    expect(group, &list, list.file_length(), 0);
}
