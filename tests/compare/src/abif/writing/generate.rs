//! Lists of items that the writer accepts.

use super::list::List;
use crate::abif::draft::LISTED_CODES;
use crate::abif::generate::Content;
use crate::abif::reader::Tag;
use crate::abif::writer::element_size;
use crate::random::Random;

const NAMES: [&[u8; 4]; 9] = [
    b"DATA",
    b"DATB",
    b"PBAS",
    b"ABCD",
    b"tdir",
    b"\0\0\0\0",
    b"\x7F\xFF\xFF\xFF",
    b"\x80\0\0\0",
    b"\xFF\xFF\xFF\xFF",
];

const NUMBERS: [i32; 9] = [1, 2, 3, 0, -1, -2, 256, i32::MAX, i32::MIN];

/// A list of a random shape, in which all rules are kept.
pub fn sound_list(random: &mut Random, count: usize) -> List {
    let tags = ascending_tags(random, count);
    let mut contents: Vec<Content> = tags.iter().map(|_| sound_content(random)).collect();
    let mut data = Vec::new();
    let mut starts = vec![0; count];
    let mut order: Vec<usize> = (0..count).collect();
    random.shuffle(&mut order);
    for index in order {
        gap(random, &mut data);
        starts[index] = data.len() as u64;
        data.extend(&contents[index].data);
    }
    gap(random, &mut data);
    for (content, start) in contents.iter_mut().zip(&mut starts) {
        if !has_rules(content.type_code) && random.one_in(6) {
            let length = content.data.len();
            let place = random.between(0, data.len() - length);
            content.data.copy_from_slice(&data[place..place + length]);
            *start = place as u64;
        }
    }
    let mut list = List {
        data,
        ..List::default()
    };
    for ((tag, content), start) in tags.into_iter().zip(&contents).zip(starts) {
        list.push(tag, content, start);
    }
    list
}

fn gap(random: &mut Random, data: &mut Vec<u8>) {
    if random.one_in(4) {
        let length = random.below(12);
        data.extend(random.bytes(length));
    }
}

fn ascending_tags(random: &mut Random, count: usize) -> Vec<Tag> {
    let mut tags: Vec<(u32, i32)> = Vec::new();
    while tags.len() < count {
        tags.resize_with(count, || random_tag(random, count));
        tags.sort_unstable();
        tags.dedup();
    }
    let tags = tags.into_iter();
    tags.map(|(name, number)| Tag { name, number }).collect()
}

// Many tags have any numbers, because there are not as many special ones.
fn random_tag(random: &mut Random, count: usize) -> (u32, i32) {
    let mut name = u32::from_be_bytes(*random.pick(&NAMES));
    let mut number = random.pick(&NUMBERS);
    if random.one_in(6) {
        name = random.next_u64() as u32;
    }
    if random.one_in(4) || count > NUMBERS.len() {
        number = random.next_u64() as i32;
    }
    (name, number)
}

/// Whether the type's rules forbid some contents.
pub fn has_rules(code: i16) -> bool {
    matches!(code, 10 | 11 | 18 | 19)
}

pub fn sound_content(random: &mut Random) -> Content {
    let code = match random.below(10) {
        0 => random.between(1024, 32_767) as i16,
        1 => random.pick(&[1024, 1025, i16::MAX]),
        2..=4 => random.pick(&[10, 11, 18, 19]),
        _ => random.pick(&LISTED_CODES),
    };
    let count = match random.below(40) {
        0 => random.between(10, 250),
        1..=6 => random.between(6, 20),
        _ => random.below(7),
    };
    Content::listed(code, sound_data(random, code, count))
}

/// So many elements of a type, but a text of no letters instead of none.
pub fn sound_data(random: &mut Random, code: i16, count: usize) -> Vec<u8> {
    match code {
        10 => (0..count).flat_map(|_| date(random)).collect(),
        11 => (0..count).flat_map(|_| time(random)).collect(),
        18 => {
            let letters = count.clamp(1, 256) - 1;
            [vec![letters as u8], random.bytes(letters)].concat()
        }
        19 => {
            let letters = (1..count).map(|_| random.between(1, 255) as u8);
            letters.chain([0]).collect()
        }
        _ => random.bytes(count * element_size(code).unwrap_or(1)),
    }
}

fn date(random: &mut Random) -> [u8; 4] {
    let year = random.next_u64() as u16;
    let [high, low] = year.to_be_bytes();
    [
        high,
        low,
        random.between(1, 12) as u8,
        random.between(1, 31) as u8,
    ]
}

fn time(random: &mut Random) -> [u8; 4] {
    [23, 59, 59, 99].map(|most| random.between(0, most) as u8)
}
