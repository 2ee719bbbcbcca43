//! Changes that break the rules of the format, or come close to it.

use super::draft::{Draft, Index, Layout, Read};
use super::reader::{FIXED_HEADER, FIXED_READ_HEADER};
use super::Sff;
use crate::damage::each_value;
use crate::format::Damage;
use crate::random::Random;

const MARKS: [&[u8; 4]; 6] = [b".sfg", b"\xAEsff", b".Sff", b".sFf", b"ffs.", b"ABIF"];

const VERSIONS: [u32; 7] = [
    0,
    2,
    0x0101,
    0x0001_0001,
    0x0100_0000,
    0x0100_0001,
    u32::MAX,
];

#[derive(Clone, Copy, Debug)]
pub enum HeaderField {
    Reads,
    Length,
    KeyLength,
    Flows,
    Code,
}

#[derive(Clone, Copy, Debug)]
pub enum ReadField {
    HeaderLength,
    NameLength,
    Bases,
    Clip(usize),
}

#[derive(Clone, Copy, Debug)]
pub enum Change {
    Mark([u8; 4]),
    Version([u8; 4]),
    Header(HeaderField, u32),
    /// The index's offset and length.
    Index(u64, u32),
    /// The flows and the key length, whose sum may stay.
    Letters(u16, u16),
    Read(usize, ReadField, u32),
    /// A read's header length and name length, which may agree.
    Name(usize, u16, u16),
    Step(usize, usize, u8),
    Length(usize),
}

impl Damage for Sff {
    type Change = Change;

    fn bases() -> Vec<Draft> {
        let one = Read::new(b"first", 4, &[1, 1, 1]);
        let mut two = Read::new(b"", 4, &[2, 0, 2, 0, 0]);
        two.clips = [2, 4, 0, 5];
        let empty = Read::new(b"no bases", 4, &[]);
        let no_flows = Read::new(b"read", 0, &[]);
        let reads = vec![one.clone(), two.clone(), empty.clone()];
        let index = |behind| Some(Index::new(behind, b"index of reads"));
        let mut followed = Draft::new(4, 4, vec![one.clone()], None);
        followed.tail = two.bytes();
        vec![
            Draft::new(4, 4, Vec::new(), None),
            Draft::new(4, 4, Vec::new(), index(0)),
            Draft::new(0, 0, vec![no_flows], None),
            Draft::new(4, 4, vec![one], None),
            Draft::new(4, 0, reads.clone(), index(0)),
            Draft::new(4, 3, reads.clone(), index(1)),
            Draft::new(4, 5, reads, index(3)),
            Draft::new(4, 1, vec![empty, two], index(1)),
            followed,
        ]
    }

    fn apply(change: Change, draft: &mut Draft) {
        match change {
            Change::Mark(mark) => draft.mark = mark,
            Change::Version(version) => draft.version = version,
            Change::Header(field, value) => set_header(draft, field, value),
            Change::Index(offset, length) => {
                draft.index_offset = offset;
                draft.index_length = length;
            }
            Change::Letters(flows, key_length) => {
                draft.flows = flows;
                draft.key_length = key_length;
            }
            Change::Read(index, field, value) => set_read(&mut draft.reads[index], field, value),
            Change::Name(index, header_length, name_length) => {
                draft.reads[index].header_length = header_length;
                draft.reads[index].name_length = name_length;
            }
            Change::Step(index, base, step) => draft.reads[index].steps[base] = step,
            Change::Length(length) => draft.length = Some(length),
        }
    }

    fn all_changes(draft: &Draft) -> Vec<Change> {
        let layout = draft.layout();
        let mut changes = header_changes(draft);
        changes.extend(index_changes(draft, &layout));
        for (index, read) in draft.reads.iter().enumerate() {
            changes.extend(read_changes(index, read));
            changes.extend(step_changes(index, read));
        }
        changes.extend(length_changes(draft, &layout));
        changes
    }

    fn certain_faults(draft: &Draft) -> Vec<Change> {
        let layout = draft.layout();
        let length = u32::from(draft.header_length);
        let mut faults = vec![
            Change::Length(FIXED_HEADER - 1),
            Change::Mark(*b".sfe"),
            Change::Version([0, 0, 0, 2]),
            Change::Header(HeaderField::Code, 2),
            Change::Header(HeaderField::Length, length + 8),
            Change::Header(HeaderField::Flows, u32::from(draft.flows) + 16),
            Change::Header(HeaderField::Reads, draft.reads.len() as u32 + 2),
            Change::Index(0, 8),
            Change::Index(layout.header_end as u64, 0),
            Change::Index(layout.header_end as u64, u32::MAX),
            Change::Index(layout.end as u64, u32::MAX),
            Change::Index(8, 8),
            Change::Index(u64::MAX, 8),
            Change::Length(layout.header_end - 1),
            Change::Length(layout.end - 1),
        ];
        for (index, read) in draft.reads.iter().enumerate() {
            faults.extend(certain_read_faults(layout.reads[index], index, read));
        }
        faults
    }

    // Headers of reads stand among the random bytes.
    fn random_tail(random: &mut Random) -> Vec<u8> {
        let flows = random.below(4) as u16;
        let mut draft = Draft::new(flows, 4, Vec::new(), None);
        draft.read_count = random.below(6) as u32;
        if random.one_in(3) {
            draft.index_offset = random.between(0, 20) as u64 * 8;
            draft.index_length = random.below(30) as u32;
        }
        let header = draft.bytes();
        let kept = random.pick(&[4, 8, 16, 20, 24, 26, 28, 30, 31, 40, 40, 40, 40, 40, 40]);
        let mut bytes = header[..kept.min(header.len())].to_vec();
        let length = random.between(20, 400);
        while bytes.len() < length {
            bytes.extend(loose_read(random, flows));
        }
        bytes
    }
}

fn set_header(draft: &mut Draft, field: HeaderField, value: u32) {
    match field {
        HeaderField::Reads => draft.read_count = value,
        HeaderField::Length => draft.header_length = value as u16,
        HeaderField::KeyLength => draft.key_length = value as u16,
        HeaderField::Flows => draft.flows = value as u16,
        HeaderField::Code => draft.code = value as u8,
    }
}

fn set_read(read: &mut Read, field: ReadField, value: u32) {
    match field {
        ReadField::HeaderLength => read.header_length = value as u16,
        ReadField::NameLength => read.name_length = value as u16,
        ReadField::Bases => read.bases = value,
        ReadField::Clip(which) => read.clips[which] = value as u16,
    }
}

fn header_changes(draft: &Draft) -> Vec<Change> {
    let mut changes: Vec<Change> = MARKS.map(|mark| Change::Mark(*mark)).into();
    changes.extend(VERSIONS.map(|version| Change::Version(version.to_be_bytes())));
    let length = u32::from(draft.header_length);
    let letters = u32::from(draft.flows) + u32::from(draft.key_length);
    let fields = [
        (HeaderField::Code, vec![0, 2, 3, 0x80, 0x81, 0xFF]),
        (HeaderField::Reads, read_count_bounds(draft)),
        (HeaderField::Length, length_bounds(length, 31 + letters)),
        (HeaderField::KeyLength, letter_bounds(draft.key_length)),
        (HeaderField::Flows, letter_bounds(draft.flows)),
    ];
    changes.extend(each_value(fields, Change::Header));
    for moved in [1, 2, 8, draft.key_length] {
        let key_length = draft.key_length.wrapping_sub(moved);
        changes.push(Change::Letters(draft.flows.wrapping_add(moved), key_length));
    }
    changes
}

fn read_count_bounds(draft: &Draft) -> Vec<u32> {
    let count = draft.reads.len() as u32;
    let mut values = vec![0, 1, 2, 0x8000_0000, u32::MAX];
    values.extend([count.saturating_sub(1), count + 1, count + 2]);
    values.extend([count + 0x1_0000, count + 0x8000_0000]);
    values
}

// Around the right length, rounded and not, and at the bounds of its field.
fn length_bounds(length: u32, unrounded: u32) -> Vec<u32> {
    let mut values = vec![0, 8, 16, 24, 31, 32, 65_528, 65_535, unrounded];
    values.extend([1, 7, 8].map(|less| length.saturating_sub(less)));
    values.extend([1, 7, 8, 16].map(|more| length + more));
    values.push(length.swap_bytes() >> 16);
    values
}

fn letter_bounds(count: u16) -> Vec<u32> {
    let count = u32::from(count);
    let mut values = vec![0, 1, 65_535];
    values.extend([1, 8].map(|less| count.saturating_sub(less)));
    values.extend([1, 8].map(|more| count + more));
    values
}

// An index at and near every boundary, of every kind of length, or with just one of its numbers.
fn index_changes(draft: &Draft, layout: &Layout) -> Vec<Change> {
    let mut changes = vec![
        Change::Index(0, draft.index_length.max(8)),
        Change::Index(draft.index_offset.max(layout.header_end as u64), 0),
        Change::Index(0, 0),
    ];
    let mut boundaries = vec![layout.header_end, layout.end];
    boundaries.extend(&layout.reads);
    boundaries.extend(layout.index);
    let file_length = layout.end + draft.tail.len();
    for boundary in boundaries {
        let left = (file_length - boundary) as u32;
        let mut lengths = vec![1, 7, 8, 9, left.max(1), left + 1];
        lengths.extend([1 << 31, u32::MAX - 8, u32::MAX - 7, u32::MAX - 6, u32::MAX]);
        for length in lengths {
            changes.push(Change::Index(boundary as u64, length));
        }
        for distance in [-8, -1, 1, 4, 8, 1 << 16, 1 << 32, i64::MIN] {
            let offset = (boundary as u64).wrapping_add_signed(distance);
            changes.push(Change::Index(offset, 8));
        }
    }
    for offset in [1, 8, 30, 31, u64::MAX, u64::MAX - 7, 1 << 63] {
        changes.push(Change::Index(offset, 8));
        changes.push(Change::Index(offset, u32::MAX));
    }
    changes
}

fn read_changes(index: usize, read: &Read) -> Vec<Change> {
    let length = u32::from(read.header_length);
    let name_length = u32::from(read.name_length);
    let unrounded = FIXED_READ_HEADER as u32 + name_length;
    let mut name_lengths = length_bounds(name_length, 65_520);
    name_lengths.extend([65_512, 65_513, 65_519, 65_521]);
    let mut fields = vec![
        (ReadField::HeaderLength, length_bounds(length, unrounded)),
        (ReadField::NameLength, name_lengths),
        (ReadField::Bases, base_count_bounds(read.bases)),
    ];
    for which in 0..4 {
        let bases = read.bases;
        let mut values = vec![0, 1, 2, 0x8000, 0xFFFF];
        values.extend([bases.saturating_sub(1), bases, bases.wrapping_add(1)]);
        fields.push((ReadField::Clip(which), values));
    }
    let mut changes = each_value(fields, |field, value| Change::Read(index, field, value));
    for more in [8, 16, 24] {
        let header_length = read.header_length.wrapping_add(more);
        let name_length = read.name_length.wrapping_add(more);
        changes.push(Change::Name(index, header_length, name_length));
    }
    for name_length in [65_513_u16, 65_520, 65_521, 65_528, 65_535] {
        let wrapped = name_length.wrapping_add(16 + 7) & !7;
        changes.push(Change::Name(index, wrapped, name_length));
    }
    changes
}

// Around the right number, and where its triple comes back after wrapping at 32 bits.
fn base_count_bounds(bases: u32) -> Vec<u32> {
    let mut values = vec![0, 1, 1 << 24, 1 << 31, u32::MAX - 1, u32::MAX];
    values.extend([1, 2, 8].map(|less| bases.saturating_sub(less)));
    values.extend([1, 2, 3, 8, 1 << 16, 1 << 31].map(|more| bases.wrapping_add(more)));
    for turns in [1_u64, 2] {
        let tripled = (turns << 32) + 3 * u64::from(bases);
        values.extend([tripled / 3, tripled.div_ceil(3)].map(|value| value as u32));
    }
    values
}

fn step_changes(index: usize, read: &Read) -> Vec<Change> {
    let mut changes = Vec::new();
    let last = read.steps.len().saturating_sub(1);
    for (base, &step) in read.steps.iter().enumerate() {
        if base > 3 && base != last {
            continue;
        }
        for value in [0, 1, 255, step.wrapping_add(1), step.wrapping_sub(1)] {
            changes.push(Change::Step(index, base, value));
        }
    }
    changes
}

fn length_changes(draft: &Draft, layout: &Layout) -> Vec<Change> {
    let whole = layout.end + draft.tail.len();
    let mut lengths = vec![0, 3, 4, 5, 7, 8, 16, 20, 24, 26, 28, 30, 31, 32];
    for (&place, read) in layout.reads.iter().zip(&draft.reads) {
        let header_end = place + usize::from(read.header_length);
        lengths.extend([place, place + 8, place + 15, place + 16, place + 17]);
        lengths.extend([header_end - 1, header_end, header_end + 1]);
    }
    if let Some(place) = layout.index {
        lengths.extend([place - 1, place, place + 1]);
    }
    for end in [layout.header_end, layout.end, whole] {
        lengths.extend([end - 1, end, end + 1, end + 8]);
    }
    lengths.into_iter().map(Change::Length).collect()
}

fn certain_read_faults(place: usize, index: usize, read: &Read) -> Vec<Change> {
    let header_length = u32::from(read.header_length);
    let mut faults = vec![
        Change::Index(place as u64, u32::MAX),
        Change::Length(place + FIXED_READ_HEADER - 1),
        Change::Read(index, ReadField::HeaderLength, header_length + 8),
        Change::Length(place + usize::from(read.header_length) - 1),
        Change::Read(index, ReadField::Bases, u32::MAX),
        Change::Read(index, ReadField::Clip(index % 4), read.bases + 1),
    ];
    if !read.steps.is_empty() {
        faults.push(Change::Step(index, 0, 0));
        faults.push(Change::Step(index, read.steps.len() - 1, 255));
    }
    faults
}

// The lengths mostly agree, and the data are mostly as long as they say.
fn loose_read(random: &mut Random, flows: u16) -> Vec<u8> {
    let name_length = random.below(12);
    let name = random.bytes(name_length);
    let bases = random.below(6);
    let steps: Vec<u8> = (0..bases).map(|_| random.below(3) as u8).collect();
    let mut read = Read::new(&name, flows, &steps);
    if random.one_in(6) {
        read.header_length = random.between(0, 5) as u16 * 8;
    }
    if random.one_in(6) {
        read.bases = random.below(10) as u32;
    }
    read.clips = [0; 4].map(|_: u16| random.pick(&[0, 0, 0, 1, 2, 5]));
    read.bytes()
}
