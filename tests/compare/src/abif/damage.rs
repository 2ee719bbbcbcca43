//! Changes that break the rules of the format, or come close to it.

use super::draft::{Draft, Record};
use super::generate::{self, element_size, Content, Order};
use super::reader::Tag;
use super::Abif;
use crate::damage::each_value;
use crate::format::Damage;
use crate::random::Random;

#[derive(Clone, Copy, Debug)]
pub enum Field {
    Name,
    Number,
    TypeCode,
    ElementSize,
    Count,
    DataSize,
    Offset,
}

#[derive(Clone, Copy, Debug)]
pub enum Change {
    Mark([u8; 4]),
    Version(i16),
    Header(Field, i32),
    Entry(usize, Field, i32),
    Sizes(usize, i32, i32),
    SameTag(usize, usize),
    Length(usize),
}

impl Damage for Abif {
    type Change = Change;

    fn bases() -> Vec<Draft> {
        let shorts = Content::listed(4, vec![0, 1, 0xFF, 0xFE, 0x80, 0, 0x7F, 0xFF]);
        let inline = Content::listed(4, vec![0, 1, 0xFF, 0xFE]);
        let text = Content::listed(18, b"\x06sample".to_vec());
        let closed = Content::listed(19, b"closed text\0".to_vec());
        let reals = Content::listed(8, generate::real_patterns()[..24].to_vec());
        let thumb = Content::listed(12, (1..=10).collect());
        let long = Content::listed(5, vec![0x80, 0, 0, 1]);
        let raw = Content::raw(1024, 7, 3, (0..9).collect());
        let date = Content::listed(10, vec![7, 214, 7, 31, 7, 214, 13, 1]);
        vec![
            file(vec![], Order::DirectoryFirst),
            file(vec![inline.clone()], Order::DirectoryFirst),
            file(vec![shorts.clone()], Order::DirectoryFirst),
            file(vec![text, shorts.clone()], Order::DirectoryLast),
            file(vec![reals, inline, thumb], Order::DirectoryBetween),
            file(vec![raw, long, closed], Order::DirectoryFirst),
            file(vec![date, shorts], Order::DirectoryLast),
        ]
    }

    fn apply(change: Change, draft: &mut Draft) {
        match change {
            Change::Mark(mark) => draft.mark = mark,
            Change::Version(version) => draft.version = version,
            Change::Header(field, value) => set(&mut draft.header, field, value),
            Change::Entry(index, field, value) => set(&mut draft.entries[index], field, value),
            Change::Sizes(index, count, data_size) => {
                draft.entries[index].count = count;
                draft.entries[index].data_size = data_size;
            }
            Change::SameTag(index, other) => draft.entries[index].tag = draft.entries[other].tag,
            Change::Length(length) => draft.body.resize(length, 0),
        }
    }

    fn all_changes(draft: &Draft) -> Vec<Change> {
        let mut changes = header_changes(draft);
        for index in 0..draft.entries.len() {
            changes.extend(entry_changes(draft, index));
        }
        changes.extend(length_changes(draft));
        changes
    }

    fn certain_faults(draft: &Draft) -> Vec<Change> {
        let mut faults = vec![
            Change::Length(127),
            Change::Mark(*b"ABIE"),
            Change::Version(99),
            Change::Version(200),
            Change::Header(Field::Name, 0),
            Change::Header(Field::Number, 2),
            Change::Header(Field::TypeCode, 1024),
            Change::Header(Field::ElementSize, 27),
            Change::Header(Field::Count, -1),
            Change::Header(Field::Count, 999),
            Change::Header(Field::Count, 1000),
            Change::Header(Field::DataSize, -1),
            Change::Header(Field::DataSize, i32::MAX),
            Change::Header(Field::Offset, 127),
            Change::Header(Field::Offset, -1),
            Change::Header(Field::Offset, i32::MAX),
            Change::Length(draft.place + 28 * draft.entries.len() - 1),
            Change::Length(draft.body.len() - 1),
        ];
        for index in 0..draft.entries.len() {
            faults.extend(certain_entry_faults(draft, index));
        }
        faults
    }

    // Random bytes behind the mark, behind the version or behind a sound header.
    fn random_tail(random: &mut Random) -> Vec<u8> {
        let length = random.between(120, 400);
        let mut bytes = random.bytes(length);
        let count = random.below(length / 28 + 1);
        let mut draft = Draft::new(128, Vec::new(), Vec::new());
        draft.header.count = count as i32;
        draft.header.data_size = 28 * count as i32;
        let header = draft.header.bytes();
        let sound = [b"ABIF", &[0, 101][..], &header].concat();
        let kept = random.pick(&[4, 6, 14, 18, 26, 30, 34, 34, 34, 34]);
        bytes[..kept].copy_from_slice(&sound[..kept]);
        bytes
    }
}

fn set(record: &mut Record, field: Field, value: i32) {
    match field {
        Field::Name => record.tag.name = value as u32,
        Field::Number => record.tag.number = value,
        Field::TypeCode => record.type_code = value as i16,
        Field::ElementSize => record.element_size = value as i16,
        Field::Count => record.count = value,
        Field::DataSize => record.data_size = value,
        Field::Offset => record.set_offset(value),
    }
}

fn header_changes(draft: &Draft) -> Vec<Change> {
    let mut changes = Vec::new();
    for mark in [b"ABIE", b"aBIF", b"AbIF", b"ABiF", b"FIBA", b"\0\0\0\0"] {
        changes.push(Change::Mark(*mark));
    }
    let versions = [
        -32_768, -156, -1, 0, 1, 99, 100, 101, 199, 200, 201, 356, 32_767,
    ];
    changes.extend(versions.map(Change::Version));
    let name = draft.header.tag.name as i32;
    let fields = [
        (Field::Name, vec![0, name ^ 1, name ^ 0x20, name ^ 1 << 24]),
        (Field::Number, vec![0, 2, -1, 1 << 24, i32::MIN]),
        (Field::TypeCode, vec![0, 1022, 1024, -1, -253, 255, 4]),
        (Field::ElementSize, vec![0, 27, 29, -28, 28 << 8, 284]),
        (Field::Count, count_bounds(draft)),
        (Field::DataSize, directory_size_bounds(draft)),
        (Field::Offset, directory_offset_bounds(draft)),
    ];
    changes.extend(each_value(fields, Change::Header));
    changes
}

fn count_bounds(draft: &Draft) -> Vec<i32> {
    let count = draft.entries.len() as i32;
    let mut values = vec![-1, -2, 0, 998, 999, 1000, 1001, 65_536, i32::MAX, i32::MIN];
    values.extend([count - 1, count + 1, count + 2]);
    values
}

fn directory_size_bounds(draft: &Draft) -> Vec<i32> {
    let size = 28 * draft.entries.len() as i32;
    vec![size - 1, size, size + 1, 0, -1, i32::MIN, i32::MAX]
}

fn directory_offset_bounds(draft: &Draft) -> Vec<i32> {
    let size = 28 * draft.entries.len() as i32;
    let last = draft.body.len() as i32 - size;
    let place = draft.place as i32;
    let mut values = vec![0, 127, 128, 129, -1, -128, i32::MIN, i32::MAX];
    values.extend([last - 1, last, last + 1, place - 1, place + 1]);
    values.extend([i32::MAX - size, (i32::MAX - size).wrapping_add(1)]);
    values
}

fn entry_changes(draft: &Draft, index: usize) -> Vec<Change> {
    let entry = &draft.entries[index];
    let fields = [
        (Field::TypeCode, type_code_bounds()),
        (Field::ElementSize, element_size_bounds(entry)),
        (Field::Count, element_count_bounds(entry)),
        (Field::DataSize, data_size_bounds(entry)),
        (Field::Offset, data_offset_bounds(draft, entry)),
        (Field::Name, vec![0, -1]),
        (Field::Number, vec![0, -1, i32::MIN]),
    ];
    let mut changes = size_changes(entry, index);
    changes.extend(each_value(fields, |field, value| {
        Change::Entry(index, field, value)
    }));
    let others = (0..draft.entries.len()).filter(|&other| other != index);
    changes.extend(others.map(|other| Change::SameTag(index, other)));
    changes
}

fn element_size_bounds(entry: &Record) -> Vec<i32> {
    let size = i32::from(entry.element_size);
    vec![0, -1, size - 1, size + 1, size << 8, 32_767, -32_768]
}

fn element_count_bounds(entry: &Record) -> Vec<i32> {
    let count = entry.count;
    let mut values = vec![-1, 0, i32::MAX, i32::MIN];
    values.extend([count.wrapping_sub(1), count.wrapping_add(1)]);
    values
}

fn type_code_bounds() -> Vec<i32> {
    let mut codes: Vec<i32> = (-2..=22).collect();
    codes.extend([127, 128, 129, 255, 256, 257, 383, 384, 385]);
    codes.extend([1022, 1023, 1024, 1025, 32_766, 32_767, -32_768, -1024]);
    codes
}

fn data_size_bounds(entry: &Record) -> Vec<i32> {
    let size = entry.data_size;
    let mut values = vec![-1, 0, 3, 4, 5, 8, i32::MAX, i32::MIN];
    values.extend([size.wrapping_sub(1), size.wrapping_add(1)]);
    values
}

fn data_offset_bounds(draft: &Draft, entry: &Record) -> Vec<i32> {
    let size = entry.data_size.max(0);
    let last = draft.body.len() as i32 - size;
    let mut values = vec![0, 127, 128, 129, -1, -128, i32::MIN, i32::MAX];
    values.extend([last - 1, last, last + 1, draft.body.len() as i32]);
    values.extend([i32::MAX - size, (i32::MAX - size).wrapping_add(1)]);
    values
}

// Counts and data sizes changed together; some agree only after wrapping at 32 bits.
fn size_changes(entry: &Record, index: usize) -> Vec<Change> {
    let size = element_size(entry.type_code) as i64;
    let mut changes = Vec::new();
    for count in [0, 1, 2, 3, 4, 5, 6, 1000] {
        changes.push(Change::Sizes(index, count, count * size as i32));
    }
    let around = (1_i64 << 32) / size;
    for count in around - 1..=around + 6 {
        if count <= i64::from(i32::MAX) {
            let wrapped = (count * size) as i32;
            changes.push(Change::Sizes(index, count as i32, wrapped));
        }
    }
    let wrapped = (i64::from(i32::MAX) * size) as i32;
    changes.push(Change::Sizes(index, i32::MAX, wrapped));
    changes.push(Change::Sizes(index, -1, -(size as i32)));
    changes.push(Change::Sizes(index, i32::MAX, i32::MAX));
    changes
}

fn length_changes(draft: &Draft) -> Vec<Change> {
    let length = draft.body.len();
    let directory_end = draft.place + 28 * draft.entries.len();
    let mut lengths = vec![0, 3, 4, 5, 6, 33, 34, 127, 128, 129];
    lengths.extend([directory_end - 1, directory_end, directory_end + 1]);
    lengths.extend([length.saturating_sub(1), length + 1, length + 28]);
    lengths.into_iter().map(Change::Length).collect()
}

fn certain_entry_faults(draft: &Draft, index: usize) -> Vec<Change> {
    let mut faults = vec![
        Change::Entry(index, Field::TypeCode, 0),
        Change::Entry(index, Field::TypeCode, 1024),
        Change::Entry(index, Field::ElementSize, -1),
        Change::Entry(index, Field::Count, -1),
        Change::Entry(index, Field::DataSize, -1),
        Change::Entry(index, Field::Offset, 127),
        Change::Entry(index, Field::Offset, draft.body.len() as i32),
    ];
    if index > 0 {
        faults.push(Change::SameTag(index, 0));
    }
    faults
}

fn file(contents: Vec<Content>, order: Order) -> Draft {
    let numbered = contents.into_iter().zip(1..);
    let items: Vec<(Tag, Content)> = numbered
        .map(|(content, number)| (Tag::new(b"ABCD", number), content))
        .collect();
    generate::plain_file(&items, order)
}
