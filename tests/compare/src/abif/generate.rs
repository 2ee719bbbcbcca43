//! Whole files of many shapes.

use super::draft::{Draft, Record, LEGACY_CODES, LISTED_CODES};
use super::reader::{Tag, Type};
use super::Abif;
use crate::floats::SINGLES;
use crate::format::Files;
use crate::random::Random;

const REALS: [u64; 16] = [
    0x0000_0000_0000_0000,
    0x8000_0000_0000_0000,
    0x3FF0_0000_0000_0000,
    0xBFF0_0000_0000_0000,
    0x0000_0000_0000_0001,
    0x8000_0000_0000_0001,
    0x000F_FFFF_FFFF_FFFF,
    0x0010_0000_0000_0000,
    0x7FEF_FFFF_FFFF_FFFF,
    0x7FF0_0000_0000_0000,
    0xFFF0_0000_0000_0000,
    0x7FF0_0000_0000_0001,
    0xFFF7_FFFF_FFFF_FFFF,
    0x7FF8_0000_0000_0000,
    0xFFF8_1234_5678_9ABC,
    0x7FFF_FFFF_FFFF_FFFF,
];

const NAMES: [&[u8; 4]; 10] = [
    b"DATA",
    b"PBAS",
    b"CMNT",
    b"ABCD",
    b"tdir",
    b"\0\0\0\0",
    b"\xFF\xFF\xFF\xFF",
    b"\x1F \x7E\x7F",
    b"abcd",
    b"DATB",
];

const NUMBERS: [i32; 12] = [
    1,
    2,
    3,
    4,
    0,
    -1,
    -2,
    256,
    65_536,
    16_777_216,
    i32::MAX,
    i32::MIN,
];

/// Where the directory lies among the items that are apart from it.
#[derive(Clone, Copy, Debug, PartialEq, Eq)]
pub enum Order {
    DirectoryFirst,
    DirectoryBetween,
    DirectoryLast,
}

pub const ORDERS: [Order; 3] = [
    Order::DirectoryFirst,
    Order::DirectoryBetween,
    Order::DirectoryLast,
];

/// An item without its place in the file.
#[derive(Clone, Debug)]
pub struct Content {
    pub type_code: i16,
    pub element_size: i16,
    pub count: i32,
    pub data: Vec<u8>,
}

impl Content {
    /// An item of a listed type holding these bytes, whole elements of that type.
    pub fn listed(type_code: i16, data: Vec<u8>) -> Content {
        let size = element_size(type_code);
        Content {
            type_code,
            element_size: size as i16,
            count: (data.len() / size) as i32,
            data,
        }
    }

    pub fn raw(type_code: i16, element_size: i16, count: i32, data: Vec<u8>) -> Content {
        Content {
            type_code,
            element_size,
            count,
            data,
        }
    }

    pub fn is_inline(&self) -> bool {
        self.data.len() <= 4
    }
}

/// The element's size of a listed type, and 1 for all others.
pub fn element_size(type_code: i16) -> usize {
    Type::from_code(type_code)
        .and_then(Type::element_size)
        .unwrap_or(1)
}

/// Every listed and legacy type code and some user type codes.
pub fn all_codes() -> Vec<i16> {
    let mut codes = LISTED_CODES.to_vec();
    codes.extend(LEGACY_CODES);
    codes.extend([1024, 1025, 20_000, i16::MAX]);
    codes
}

pub fn single_patterns() -> Vec<u8> {
    SINGLES.iter().flat_map(|bits| bits.to_be_bytes()).collect()
}

pub fn real_patterns() -> Vec<u8> {
    REALS.iter().flat_map(|bits| bits.to_be_bytes()).collect()
}

/// A whole file with these tags and items, placed back to back.
pub fn plain_file(items: &[(Tag, Content)], order: Order) -> Draft {
    let apart: Vec<usize> = (0..items.len())
        .filter(|&index| !items[index].1.is_inline())
        .collect();
    let before = match order {
        Order::DirectoryFirst => 0,
        Order::DirectoryBetween => apart.len() / 2,
        Order::DirectoryLast => apart.len(),
    };
    let mut layout = Layout::new(items);
    for (position, &index) in apart.iter().enumerate() {
        if position == before {
            layout.place_directory();
        }
        layout.place_item(index);
    }
    if before == apart.len() {
        layout.place_directory();
    }
    layout.finish()
}

impl Files for Abif {
    type Draft = Draft;

    fn random_file(random: &mut Random, most: usize) -> Draft {
        let count = entry_count(random, most);
        let mut items: Vec<(Tag, Content)> = Vec::new();
        for _ in 0..count {
            let tag = new_tag(random, &items);
            items.push((tag, random_content(random)));
        }
        let mut draft = random_layout(random, &items);
        if random.one_in(4) {
            overlap(random, &mut draft);
        }
        loosen(random, &mut draft);
        draft
    }

    // Most items are small.
    fn long_file(random: &mut Random, count: usize) -> Draft {
        let items: Vec<(Tag, Content)> = (0..count)
            .map(|index| {
                let tag = Tag::new(b"DATA", index as i32 + 1);
                (tag, random_content(random))
            })
            .collect();
        plain_file(&items, random.pick(&ORDERS))
    }
}

fn entry_count(random: &mut Random, most: usize) -> usize {
    match random.below(20) {
        0 => 0,
        1..=15 => random.between(1, most.min(5)),
        _ => random.between(1, most),
    }
}

fn new_tag(random: &mut Random, items: &[(Tag, Content)]) -> Tag {
    loop {
        let name = random.pick(&NAMES);
        let mut tag = Tag::new(name, random.pick(&NUMBERS));
        if random.one_in(8) {
            tag.name = random.next_u64() as u32;
        }
        if random.one_in(8) {
            tag.number = random.next_u64() as i32;
        }
        if items.iter().all(|(other, _)| *other != tag) {
            return tag;
        }
    }
}

pub fn random_content(random: &mut Random) -> Content {
    if random.below(10) < 7 {
        let code = random.pick(&LISTED_CODES);
        let count = element_count(random);
        let data = listed_data(random, code, count);
        return Content::listed(code, data);
    }
    let code = match random.below(4) {
        0 | 1 => random.pick(&LEGACY_CODES),
        2 => random.pick(&[1024, i16::MAX]),
        _ => random.between(1024, 32_767) as i16,
    };
    let length = element_count(random);
    let size = random.pick(&[0, 1, 2, 4, 28, 255, i16::MAX]);
    let count = random.pick(&[0, 1, length as i32, 5, 70_000, i32::MAX]);
    Content::raw(code, size, count, random.bytes(length))
}

fn element_count(random: &mut Random) -> usize {
    match random.below(40) {
        0 => random.between(10, 300),
        1..=6 => random.between(10, 20),
        _ => random.below(10),
    }
}

/// Data of a listed type, with the values that matter for that type.
pub fn listed_data(random: &mut Random, type_code: i16, count: usize) -> Vec<u8> {
    if type_code == 18 {
        return pascal_string(random, count);
    }
    if type_code == 19 {
        return c_string(random, count);
    }
    let mut data = Vec::new();
    for _ in 0..count {
        match type_code {
            7 if random.one_in(2) => data.extend(random.pick(&SINGLES).to_be_bytes()),
            8 if random.one_in(2) => data.extend(random.pick(&REALS).to_be_bytes()),
            10 => data.extend(random_date(random)),
            11 => data.extend(random_time(random)),
            13 => data.push(random.pick(&[0, 1, 2, 0x80, 0xFF])),
            _ => data.extend(random_element(random, type_code)),
        }
    }
    data
}

fn random_element(random: &mut Random, type_code: i16) -> Vec<u8> {
    let size = element_size(type_code);
    match random.below(8) {
        0 => vec![0; size],
        1 => vec![0xFF; size],
        2 => [vec![0x7F], vec![0xFF; size - 1]].concat(),
        3 => [vec![0x80], vec![0; size - 1]].concat(),
        _ => random.bytes(size),
    }
}

fn random_date(random: &mut Random) -> Vec<u8> {
    let mut date = random.bytes(4);
    date[2] = random.pick(&[0, 1, 2, 6, 11, 12, 12, 13, 255]);
    date[3] = random.pick(&[0, 1, 2, 15, 30, 31, 31, 32, 255]);
    date
}

fn random_time(random: &mut Random) -> Vec<u8> {
    vec![
        random.pick(&[0, 1, 12, 22, 23, 23, 24, 255]),
        random.pick(&[0, 1, 30, 58, 59, 59, 60, 255]),
        random.pick(&[0, 1, 30, 58, 59, 59, 60, 255]),
        random.pick(&[0, 1, 50, 98, 99, 99, 100, 255]),
    ]
}

fn pascal_string(random: &mut Random, length: usize) -> Vec<u8> {
    let mut data = random.bytes(length);
    if let Some(first) = data.first_mut() {
        let right = (length - 1) as u8;
        let wrong = [right.wrapping_add(1), right.wrapping_sub(1), 0, 255];
        *first = if random.one_in(3) {
            random.pick(&wrong)
        } else {
            right
        };
    }
    data
}

fn c_string(random: &mut Random, length: usize) -> Vec<u8> {
    let mut data: Vec<u8> = (0..length).map(|_| random.between(1, 255) as u8).collect();
    if !random.one_in(6) {
        data.iter_mut().rev().take(1).for_each(|last| *last = 0);
    }
    if length > 0 && random.one_in(6) {
        let place = random.below(length);
        data[place] = 0;
    }
    data
}

// Items and directory in a random order with random gaps between them.
fn random_layout(random: &mut Random, items: &[(Tag, Content)]) -> Draft {
    let mut order: Vec<Option<usize>> = vec![None];
    order.extend((0..items.len()).map(Some));
    random.shuffle(&mut order);
    let mut layout = Layout::new(items);
    for piece in order {
        if random.one_in(4) {
            let length = random.below(9);
            layout.gap(random.bytes(length));
        }
        match piece {
            None => layout.place_directory(),
            Some(index) if items[index].1.is_inline() => {}
            Some(index) => layout.place_item(index),
        }
    }
    if random.one_in(3) {
        let length = random.below(20);
        layout.gap(random.bytes(length));
    }
    layout.finish()
}

// Moves some items that are apart to any place where they fit.
fn overlap(random: &mut Random, draft: &mut Draft) {
    let length = draft.body.len();
    for entry in &mut draft.entries {
        if !entry.is_inline() && random.one_in(2) {
            let last = length - entry.data_size as usize;
            entry.set_offset(random.between(128, last) as i32);
        }
    }
}

// Changes what a reader must not mind: the version, the reserved bytes, the room in the directory.
fn loosen(random: &mut Random, draft: &mut Draft) {
    draft.version = random.between(100, 199) as i16;
    draft.header.handle = random.next_u64() as i32;
    if random.one_in(3) {
        let extra = random.pick(&[1, 27, 28, 56, 1000, i32::MAX - draft.header.data_size]);
        draft.header.data_size += extra;
    }
    if random.one_in(2) {
        let reserved = random.bytes(94);
        draft.body[34..128].copy_from_slice(&reserved);
    }
    for entry in &mut draft.entries {
        entry.handle = random.next_u64() as i32;
        for place in entry.data_size.clamp(0, 4)..4 {
            if entry.is_inline() {
                entry.offset[place as usize] = random.next_u64() as u8;
            }
        }
    }
}

struct Layout<'a> {
    items: &'a [(Tag, Content)],
    entries: Vec<Record>,
    place: usize,
    body: Vec<u8>,
}

impl<'a> Layout<'a> {
    fn new(items: &'a [(Tag, Content)]) -> Layout<'a> {
        Layout {
            items,
            entries: items.iter().map(record).collect(),
            place: 128,
            body: vec![0; 128],
        }
    }

    fn gap(&mut self, filler: Vec<u8>) {
        self.body.extend(filler);
    }

    fn place_directory(&mut self) {
        self.place = self.body.len();
        self.body.resize(self.place + 28 * self.items.len(), 0);
    }

    fn place_item(&mut self, index: usize) {
        self.entries[index].set_offset(self.body.len() as i32);
        self.body.extend(&self.items[index].1.data);
    }

    fn finish(self) -> Draft {
        Draft::new(self.place, self.entries, self.body)
    }
}

// The item's entry, with its data in the offset field where they fit there.
fn record((tag, content): &(Tag, Content)) -> Record {
    let mut offset = [0; 4];
    if content.is_inline() {
        offset[..content.data.len()].copy_from_slice(&content.data);
    }
    Record {
        tag: *tag,
        type_code: content.type_code,
        element_size: content.element_size,
        count: content.count,
        data_size: content.data.len() as i32,
        offset,
        handle: 0,
    }
}
