//! Changes that break the rules of the format, or come close to it.

use super::draft::{
    element_size, is_snp_array, listed_ids, Draft, Entry, ARRAYS, BASE_CALLS, BLOCKS, GENOTYPES,
    NUMBER_OF_SNPS, SCANNER, SNP_ARRAYS, TEXTS, TRANSFORMATIONS,
};
use super::generate::{
    array, plain_file, scanner, snp_items, snp_of_code, text, transformation, Content, Items,
    UNLISTED,
};
use super::reader::{ENTRY_LENGTH, HEADER_LENGTH};
use super::Gtc;
use crate::draft::write_over;
use crate::floats::SINGLES;
use crate::format::Damage;
use crate::little_endian::u32_at;
use crate::random::Random;

const MARKS: [&[u8; 3]; 6] = [b"gtd", b"Gtc", b"gTc", b"gtC", b"ctg", b"\0\0\0"];
const VERSIONS: [u8; 9] = [0, 1, 3, 4, 6, 0x50, 0x80, 0x85, 0xFF];

#[derive(Clone, Copy, Debug)]
pub enum Change {
    Mark([u8; 3]),
    Version(u8),
    EntryCount(i32),
    Id(usize, u16),
    SameId(usize, usize),
    Offset(usize, u32),
    /// The four bytes at the front of an entry's item.
    Count(usize, u32),
    /// The number of SNPs and the counts of all arrays that depend on it.
    Snps(u32),
    Byte(usize, u8),
    Length(usize),
}

impl Damage for Gtc {
    type Change = Change;

    fn bases() -> Vec<Draft> {
        let snps = [13, 45, 0].map(snp_of_code);
        let records = snp_items(&snps);
        let mut number_last = records.clone();
        number_last.rotate_left(1);
        let mut with_more = snp_items(&snps[..1]);
        with_more.push((1012, array([0x3F80_0000_u32.to_le_bytes()])));
        with_more.insert(0, (1013, array([SINGLES[14].to_le_bytes()])));
        let mut none = snp_items(&[]);
        none.push((1017, Content::Field(3)));
        let mut followed = plain_file(&texts());
        followed.body.extend(b"bytes behind the end");
        vec![
            plain_file(&[]),
            plain_file(&[(NUMBER_OF_SNPS, Content::Field(3))]),
            plain_file(&records),
            plain_file(&number_last),
            plain_file(&with_more),
            plain_file(&none),
            followed,
            plain_file(&blocks()),
            plain_file(&last_scanner()),
            shared(records),
        ]
    }

    fn apply(change: Change, draft: &mut Draft) {
        match change {
            Change::Mark(mark) => draft.mark = mark,
            Change::Version(version) => draft.version = version,
            Change::EntryCount(count) => draft.entry_count = count,
            Change::Id(index, id) => draft.entries[index].id = id,
            Change::SameId(index, other) => draft.entries[index].id = draft.entries[other].id,
            Change::Offset(index, offset) => draft.entries[index].offset = offset,
            Change::Count(index, count) => set_count(draft, index, count),
            Change::Snps(count) => set_snps(draft, count),
            Change::Byte(place, byte) => write_over(&mut draft.body, place, &[byte]),
            Change::Length(length) => draft.body.resize(length, 0),
        }
    }

    fn all_changes(draft: &Draft) -> Vec<Change> {
        let mut changes = header_changes(draft);
        for (index, entry) in draft.entries.iter().enumerate() {
            changes.extend(id_changes(draft, index));
            let offsets = offset_bounds(draft, entry);
            changes.extend(offsets.into_iter().map(|it| Change::Offset(index, it)));
        }
        for (index, entry) in draft.items() {
            changes.extend(item_changes(draft, index, entry));
        }
        for count in [0, 1, 2, 3, 4, 1 << 30, 1 << 31, u32::MAX] {
            changes.extend([0, 1, 2].map(|more| Change::Snps(u32::wrapping_add(count, more))));
        }
        changes.extend(length_changes(draft));
        changes
    }

    fn certain_faults(draft: &Draft) -> Vec<Change> {
        let mut faults = vec![
            Change::Length(HEADER_LENGTH - 1),
            Change::Mark(*b"gtb"),
            Change::Version(4),
            Change::EntryCount(-1),
            Change::EntryCount(999),
            Change::EntryCount(1000),
            Change::Length(draft.table_end() - 1),
            Change::Length(draft.body.len() - 1),
        ];
        for (index, entry) in draft.entries.iter().enumerate() {
            faults.extend(certain_entry_faults(draft, index, entry));
        }
        faults
    }

    // A table with mostly listed ids and offsets inside the file, and mostly small numbers behind it.
    fn random_tail(random: &mut Random) -> Vec<u8> {
        let count = random.below(12);
        let lowest = HEADER_LENGTH + ENTRY_LENGTH * count;
        let length = lowest + random.below(200);
        let listed = listed_ids();
        let mut bytes = [b"gtc\x05", &(count as u32).to_le_bytes()[..]].concat();
        for _ in 0..count {
            let id = match random.below(8) {
                0 => random.pick(&UNLISTED),
                1 | 2 => NUMBER_OF_SNPS,
                3 | 4 => random.pick(&SNP_ARRAYS).0,
                5 => random.pick(&ARRAYS).0,
                _ => random.pick(&listed),
            };
            let offset = match random.below(12) {
                0 => random.next_u64() as u32,
                1 => random.below(lowest + 1) as u32,
                _ if id == NUMBER_OF_SNPS => random.below(3) as u32,
                _ => random.between(lowest, length) as u32,
            };
            bytes.extend(id.to_le_bytes());
            bytes.extend(offset.to_le_bytes());
        }
        while bytes.len() < length {
            let any = random.next_u64() as u8;
            bytes.push(random.pick(&[0, 0, 0, 0, 0, 0, 0, 0, 1, 2, 3, any]));
        }
        let kept = random.pick(&[3, 4, 5, 8, 8, 8, 8, 8, 8, 8, 8, 8]);
        let other = random.bytes(HEADER_LENGTH - kept);
        bytes[kept..HEADER_LENGTH].copy_from_slice(&other);
        bytes
    }
}

fn set_count(draft: &mut Draft, index: usize, count: u32) {
    let place = draft.entries[index].offset as usize;
    write_over(&mut draft.body, place, &count.to_le_bytes());
}

fn set_snps(draft: &mut Draft, count: u32) {
    for index in 0..draft.entries.len() {
        let entry = &mut draft.entries[index];
        if entry.id == NUMBER_OF_SNPS {
            entry.offset = count;
        } else if is_snp_array(entry.id) {
            set_count(draft, index, count);
        }
    }
}

fn header_changes(draft: &Draft) -> Vec<Change> {
    let mut changes: Vec<Change> = MARKS.map(|mark| Change::Mark(*mark)).into();
    changes.extend(VERSIONS.map(Change::Version));
    let count = draft.entries.len() as i32;
    let mut counts = vec![0, 1, -1, i32::MIN, i32::MAX, 998, 999, 1000, 1001];
    counts.extend([count - 1, count + 1, count + 2, count + 0x1_0000]);
    counts.extend([count.swap_bytes(), -count]);
    changes.extend(counts.into_iter().map(Change::EntryCount));
    changes
}

fn id_changes(draft: &Draft, index: usize) -> Vec<Change> {
    let id = draft.entries[index].id;
    let mut ids = vec![0, 1, 2, 10, 400, 500, 1000, 1002, 1004, 1005, 1007, 1010];
    ids.extend([1011, 1012, 1014, 1016, 1017, u16::MAX]);
    ids.extend([id.swap_bytes(), id ^ 0x100, id ^ 0x8000]);
    ids.extend([id.wrapping_add(1), id.wrapping_sub(1)]);
    let others = (0..draft.entries.len()).filter(|&other| other != index);
    let mut changes: Vec<Change> = ids.into_iter().map(|id| Change::Id(index, id)).collect();
    changes.extend(others.map(|other| Change::SameId(index, other)));
    changes
}

/// Around the entry's own offset or value, around the lowest, and around the end of the file.
pub fn offset_bounds(draft: &Draft, entry: &Entry) -> Vec<u32> {
    let lowest = draft.table_end() as u32;
    let length = draft.body.len() as u32;
    let mut offsets = vec![0, 7, 8, 9, 1 << 31, u32::MAX, i32::MAX as u32];
    offsets.extend([lowest - 1, lowest, lowest + 1, lowest + 4]);
    offsets.extend([length.wrapping_sub(1), length, length + 1]);
    let last = length.wrapping_sub(entry.length as u32);
    offsets.extend([last.wrapping_sub(1), last, last.wrapping_add(1)]);
    let own = [1, 0x1_0000, 1 << 31, u32::MAX];
    offsets.extend(own.map(|more| entry.offset.wrapping_add(more)));
    offsets.push(entry.offset.swap_bytes());
    offsets.extend(draft.items().map(|(_, other)| other.offset));
    offsets
}

fn item_changes(draft: &Draft, index: usize, entry: &Entry) -> Vec<Change> {
    let start = entry.offset as usize;
    if let Some(size) = element_size(entry.id).filter(|_| entry.length >= 4) {
        let count = u32_at(&draft.body, start);
        let counts = count_bounds(count, size).into_iter();
        let mut changes: Vec<Change> = counts.map(|it| Change::Count(index, it)).collect();
        let forbidden: &[u8] = match entry.id {
            GENOTYPES => &[0, 4, 45, 46, 255],
            BASE_CALLS => b"-TNa\0",
            _ => &[],
        };
        for place in start + 4..entry.end() {
            changes.extend(forbidden.iter().map(|&byte| Change::Byte(place, byte)));
        }
        return changes;
    }
    let mut changes = Vec::new();
    for place in text_lengths(draft, entry) {
        let length = draft.body[place];
        let near = [length.wrapping_sub(1), length.wrapping_add(1)];
        for byte in [0, 1, 127, 128, 254, 255].into_iter().chain(near) {
            changes.push(Change::Byte(place, byte));
        }
    }
    changes
}

// Around the right count, and where the size comes back after wrapping at 32 bits.
fn count_bounds(count: u32, size: usize) -> Vec<u32> {
    let mut counts = vec![0, 1, 2, i32::MAX as u32, 1 << 31, u32::MAX];
    let around = ((1_u64 << 32) / size as u64) as u32;
    counts.extend([around, around.wrapping_add(1), around.wrapping_add(count)]);
    let own = [1, 2, 256, 0x1_0000, 1 << 31, u32::MAX];
    counts.extend(own.map(|more| count.wrapping_add(more)));
    counts.push(count.swap_bytes());
    counts
}

// Where the length bytes of an item's texts stand, as far as they lie inside the file.
fn text_lengths(draft: &Draft, entry: &Entry) -> Vec<usize> {
    let gaps: &[usize] = match entry.id {
        SCANNER => &[0, 8, 0],
        id if TEXTS.contains(&id) => &[0],
        _ => &[],
    };
    let mut place = entry.offset as usize;
    let mut places = Vec::new();
    for gap in gaps {
        place += gap;
        let Some(&length) = draft.body.get(place) else {
            break;
        };
        places.push(place);
        place += 1 + usize::from(length);
    }
    places
}

fn length_changes(draft: &Draft) -> Vec<Change> {
    let whole = draft.body.len();
    let mut lengths = vec![0, 2, 3, 4, 5, 7, 8, 9, 10, 13];
    for end in [draft.table_end(), whole] {
        lengths.extend([end.saturating_sub(1), end, end + 1, end + 6]);
    }
    for (_, entry) in draft.items() {
        let start = entry.offset as usize;
        lengths.extend([start, start + 1, start + 3, start + 4, start + 5]);
        lengths.extend([entry.end() - 1, entry.end()]);
        for place in text_lengths(draft, entry) {
            lengths.extend([4, 1].map(|less| place.saturating_sub(less)));
            lengths.extend([place, place + 1, place + 2]);
        }
    }
    lengths.into_iter().map(Change::Length).collect()
}

fn certain_entry_faults(draft: &Draft, index: usize, entry: &Entry) -> Vec<Change> {
    let mut faults = vec![
        Change::Offset(index, draft.table_end() as u32 - 1),
        Change::Offset(index, u32::MAX),
        Change::Offset(index, draft.body.len() as u32),
    ];
    if index > 0 {
        faults.push(Change::SameId(index, index - 1));
        faults.push(Change::Id(index, NUMBER_OF_SNPS));
    }
    if element_size(entry.id).is_some() {
        faults.push(Change::Count(index, u32::MAX));
        faults.push(Change::Count(index, i32::MAX as u32));
    }
    match entry.id {
        NUMBER_OF_SNPS => faults.push(Change::Id(index, 1017)),
        GENOTYPES => faults.push(Change::Byte(entry.end() - 1, 46)),
        BASE_CALLS => faults.push(Change::Byte(entry.end() - 1, b'N')),
        SCANNER => faults.push(Change::Byte(entry.offset as usize, 255)),
        _ => {}
    }
    faults
}

fn texts() -> Items {
    vec![
        (10, text(b"sample")),
        (59_395, Content::Field(0)),
        (11, text(b"")),
        (1016, text(b"4019585376")),
        (59_395, Content::Field(u32::MAX)),
    ]
}

fn blocks() -> Items {
    let sized = BLOCKS.into_iter().zip(1..);
    let mut items: Items = sized
        .map(|((id, length), byte)| (id, Content::Item(vec![byte; length])))
        .collect();
    items.push((1010, Content::Field(u32::MAX)));
    items
}

fn last_scanner() -> Items {
    let floats = std::array::from_fn(|place| SINGLES[place]);
    vec![
        (TRANSFORMATIONS, array([transformation(-1, floats)])),
        (500, array([[1, 2], [3, 4]])),
        (SCANNER, scanner(b"name", b"", b"user")),
    ]
}

// Both intensities and the controls stand in one array.
fn shared(mut items: Items) -> Draft {
    items.push((501, array([[0; 2]; 0])));
    let mut draft = plain_file(&items);
    let raw_x = draft.entries[1];
    for index in [2, 6] {
        draft.entries[index].offset = raw_x.offset;
        draft.entries[index].length = raw_x.length;
    }
    draft
}
