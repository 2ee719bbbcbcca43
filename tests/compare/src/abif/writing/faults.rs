//! Changes of a list that break the rules, or come close to it.

use super::generate::has_rules;
use super::list::List;
use crate::abif::reader::Tag;
use crate::random::Random;

/// Numbers of 64 bits around the bounds of narrower ones.
pub const WIDE: [u64; 16] = [
    0x7FFF,
    0xFFFF,
    0x1_0000,
    0x7FFF_FFFF,
    0x8000_0000,
    0xFFFF_FFFF,
    0x1_0000_0000,
    0x1_0000_0001,
    0x7FFF_FFFF_FFFF_FFFF,
    0x8000_0000_0000_0000,
    0x8000_0000_0000_0001,
    0xFFFF_FFFF_0000_0000,
    u64::MAX - 8,
    u64::MAX - 7,
    u64::MAX - 1,
    u64::MAX,
];

const CODES: [i16; 30] = [
    0,
    1,
    2,
    3,
    4,
    5,
    6,
    7,
    8,
    9,
    10,
    11,
    12,
    13,
    14,
    17,
    18,
    19,
    20,
    21,
    128,
    256,
    384,
    1022,
    1023,
    1024,
    i16::MAX,
    -1,
    -4,
    i16::MIN,
];

const BYTES: [u8; 13] = [0, 1, 2, 12, 13, 23, 24, 31, 32, 59, 60, 99, 100];

/// A field that has a list of its own.
#[derive(Clone, Copy, Debug)]
pub enum Field {
    Names,
    Numbers,
    Types,
    Counts,
    Starts,
    Lengths,
}

pub const FIELDS: [Field; 6] = [
    Field::Names,
    Field::Numbers,
    Field::Types,
    Field::Counts,
    Field::Starts,
    Field::Lengths,
];

#[derive(Clone, Copy, Debug)]
pub enum Fault {
    Start(usize, u64),
    Length(usize, u64),
    Count(usize, u32),
    Type(usize, i16),
    /// The byte at this place of the item's data.
    Byte(usize, usize, u8),
    Tag(usize, Tag),
    /// One list's new length, filled up with zeros.
    Resize(Field, usize),
}

impl Fault {
    pub fn apply(self, list: &mut List) {
        match self {
            Fault::Start(index, start) => list.starts[index] = start,
            Fault::Length(index, length) => list.lengths[index] = length,
            Fault::Count(index, count) => list.counts[index] = count,
            Fault::Type(index, code) => list.types[index] = code,
            Fault::Byte(index, place, byte) => {
                let place = (list.starts[index] as usize).wrapping_add(place);
                if let Some(slot) = list.data.get_mut(place) {
                    *slot = byte;
                }
            }
            Fault::Tag(index, tag) => list.set_tag(index, tag),
            Fault::Resize(field, length) => resize(list, field, length),
        }
    }
}

fn resize(list: &mut List, field: Field, length: usize) {
    match field {
        Field::Names => list.names.resize(length, 0),
        Field::Numbers => list.numbers.resize(length, 0),
        Field::Types => list.types.resize(length, 0),
        Field::Counts => list.counts.resize(length, 0),
        Field::Starts => list.starts.resize(length, 0),
        Field::Lengths => list.lengths.resize(length, 0),
    }
}

/// A change of one item or of a list's length, many of them in contents that have rules.
pub fn random_fault(random: &mut Random, list: &List) -> Fault {
    let shortest = shortest(list);
    let kind = random.below(12);
    if kind == 0 || shortest == 0 {
        let field = random.pick(&FIELDS);
        let count = list.count();
        return Fault::Resize(field, random.pick(&[count + 1, count.saturating_sub(1), 0]));
    }
    let mut index = random.below(shortest);
    if kind >= 8 {
        let ruled = (0..shortest).filter(|&index| has_rules(list.types[index]));
        let ruled: Vec<usize> = ruled.collect();
        if !ruled.is_empty() {
            index = random.pick(&ruled);
        }
    }
    match kind {
        1 => random.pick(&start_faults(list, index)),
        2 => random.pick(&length_faults(list, index)),
        3 => random.pick(&count_faults(list, index)),
        4 | 5 => Fault::Type(index, random.pick(&CODES)),
        6 | 7 => random.pick(&tag_faults(list, index)),
        _ => random.pick(&byte_faults(list, index)),
    }
}

fn shortest(list: &List) -> usize {
    let lengths = [
        list.names.len(),
        list.numbers.len(),
        list.types.len(),
        list.counts.len(),
        list.starts.len(),
        list.lengths.len(),
    ];
    lengths.into_iter().min().unwrap_or(0)
}

fn start_faults(list: &List, index: usize) -> Vec<Fault> {
    let end = list.data.len() as u64;
    let last = end.saturating_sub(list.lengths[index]);
    let mut starts = vec![0, last, last + 1, end, end + 1];
    starts.extend(WIDE);
    starts.push(0_u64.wrapping_sub(list.lengths[index]));
    starts
        .into_iter()
        .map(|start| Fault::Start(index, start))
        .collect()
}

fn length_faults(list: &List, index: usize) -> Vec<Fault> {
    let length = list.lengths[index];
    let left = (list.data.len() as u64).saturating_sub(list.starts[index]);
    let mut lengths = vec![0, 1, 4, 5, left, left + 1];
    lengths.extend([length.wrapping_sub(1), length.wrapping_add(1)]);
    lengths.extend(WIDE);
    lengths.push(0_u64.wrapping_sub(list.starts[index]));
    lengths
        .into_iter()
        .map(|length| Fault::Length(index, length))
        .collect()
}

fn count_faults(list: &List, index: usize) -> Vec<Fault> {
    let count = list.counts[index];
    let mut counts = vec![0, 1, count.wrapping_sub(1), count.wrapping_add(1)];
    counts.extend([0x7FFF_FFFF, 0x8000_0000, u32::MAX]);
    counts.extend([count | 0x8000_0000, count.wrapping_add(0x4000_0000)]);
    counts.push(count.wrapping_add(1 << 16));
    counts
        .into_iter()
        .map(|count| Fault::Count(index, count))
        .collect()
}

fn byte_faults(list: &List, index: usize) -> Vec<Fault> {
    let length = list.lengths[index].min(40) as usize;
    let mut faults = Vec::new();
    for place in 0..length {
        let given = list
            .data
            .get((list.starts[index] as usize).wrapping_add(place));
        let given = given.copied().unwrap_or(0);
        for byte in BYTES {
            faults.push(Fault::Byte(index, place, byte));
        }
        for byte in [given.wrapping_add(1), given.wrapping_sub(1), 255] {
            faults.push(Fault::Byte(index, place, byte));
        }
    }
    faults.push(Fault::Length(index, 0));
    faults
}

// Tags just above, at and just below the one before, and the one of the item behind.
fn tag_faults(list: &List, index: usize) -> Vec<Fault> {
    let count = shortest(list);
    let before = list.tag(index.saturating_sub(1));
    let after = list.tag((index + 1).min(count - 1));
    let Tag { name, number } = before;
    let mut tags = vec![before, after];
    for number in [
        number.wrapping_sub(1),
        number.wrapping_add(1),
        -1,
        i32::MIN,
        i32::MAX,
    ] {
        tags.push(Tag { name, number });
    }
    for name in [
        name.wrapping_sub(1),
        name.wrapping_add(1),
        name ^ 0x8000_0000,
    ] {
        tags.push(Tag { name, number });
        tags.push(Tag { name, number: -1 });
    }
    tags.into_iter().map(|tag| Fault::Tag(index, tag)).collect()
}

/// Every single change, at and around each bound.
pub fn all_faults(list: &List) -> Vec<Fault> {
    let mut faults = Vec::new();
    for index in 0..list.count() {
        faults.extend(start_faults(list, index));
        faults.extend(length_faults(list, index));
        faults.extend(count_faults(list, index));
        faults.extend(CODES.map(|code| Fault::Type(index, code)));
        faults.extend(byte_faults(list, index));
        faults.extend(tag_faults(list, index));
    }
    for field in FIELDS {
        for length in [0, list.count().saturating_sub(1), list.count() + 1] {
            faults.push(Fault::Resize(field, length));
        }
    }
    faults
}
