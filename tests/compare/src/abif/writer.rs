//! An ABIF writer written from the rules of the format alone.

use super::reader::Tag;
use crate::refusal::Refusal;

const HEADER_LENGTH: usize = 128;
const ENTRY_LENGTH: usize = 28;
const VERSION: u16 = 101;
const DIRECTORY_TYPE: i16 = 1023;
const MOST_ITEMS: usize = 999;
const MOST_INLINE_BYTES: usize = 4;
/// The largest number that a signed field of 32 bits holds.
const LARGEST: u64 = i32::MAX as u64;

/// The lent items, a list for each field, and the buffer that their data are parts of.
#[derive(Clone, Copy, Debug)]
pub struct Lent<'a> {
    pub names: &'a [u32],
    pub numbers: &'a [i32],
    pub types: &'a [i16],
    pub counts: &'a [u32],
    pub starts: &'a [u64],
    pub lengths: &'a [u64],
    pub data: &'a [u8],
}

impl<'a> Lent<'a> {
    fn is_even(&self) -> bool {
        let lengths = [
            self.numbers.len(),
            self.types.len(),
            self.counts.len(),
            self.starts.len(),
            self.lengths.len(),
        ];
        lengths.iter().all(|&length| length == self.names.len())
    }

    fn tag(&self, index: usize) -> Tag {
        Tag {
            name: self.names[index],
            number: self.numbers[index],
        }
    }

    // The item's part of the buffer, if it lies inside.
    fn part(&self, index: usize) -> Option<&'a [u8]> {
        let start = usize::try_from(self.starts[index]).ok()?;
        let length = usize::try_from(self.lengths[index]).ok()?;
        self.data.get(start..)?.get(..length)
    }

    // The length of the item's data, once all its checks are passed.
    fn check(&self, index: usize) -> Result<usize, Refusal> {
        let part = self.part(index).ok_or(Refusal::BadSizes)?;
        let code = self.types[index];
        let size = element_size(code).ok_or(Refusal::TypeNotHandled)?;
        let count = u64::from(self.counts[index]);
        let length = part.len() as u64;
        if count > LARGEST || length > LARGEST || length != size as u64 * count {
            return Err(Refusal::BadSizes);
        }
        if !is_allowed(code, part) {
            return Err(Refusal::ForbiddenValue);
        }
        if index > 0 && !is_above(self.tag(index), self.tag(index - 1)) {
            return Err(Refusal::NotAscending);
        }
        Ok(part.len())
    }
}

/// Writes the file to the front of `out` and returns its length.
pub fn write(lent: &Lent, out: &mut [u8]) -> Result<u64, Refusal> {
    if !lent.is_even() {
        return Err(Refusal::BadSizes);
    }
    let count = lent.names.len();
    let mut directory = HEADER_LENGTH as u64;
    for index in 0..count {
        let length = lent.check(index)?;
        if length > MOST_INLINE_BYTES {
            directory += length as u64;
        }
    }
    if count > MOST_ITEMS {
        return Err(Refusal::TooManyEntries);
    }
    let total = directory + (ENTRY_LENGTH * count) as u64;
    if total > LARGEST {
        return Err(Refusal::BadSizes);
    }
    let file = out
        .get_mut(..total as usize)
        .ok_or(Refusal::OutputTooSmall)?;
    write_file(lent, file, directory as usize);
    Ok(total)
}

// Fills a slice of just the file's length, whose directory begins at this place.
fn write_file(lent: &Lent, file: &mut [u8], directory: usize) {
    let (front, entries) = file.split_at_mut(directory);
    write_header(front, lent.names.len(), directory);
    let mut place = HEADER_LENGTH;
    for (index, entry) in entries.chunks_exact_mut(ENTRY_LENGTH).enumerate() {
        let data = &lent.data[lent.starts[index] as usize..][..lent.lengths[index] as usize];
        let mut field = [0; 4];
        if data.len() > MOST_INLINE_BYTES {
            front[place..place + data.len()].copy_from_slice(data);
            field = (place as u32).to_be_bytes();
            place += data.len();
        } else {
            field[..data.len()].copy_from_slice(data);
        }
        let code = lent.types[index];
        let sizes = [lent.counts[index], data.len() as u32];
        let size = element_size(code).unwrap_or(1) as u16;
        write_entry(entry, lent.tag(index), (code, size), sizes, field);
    }
}

fn write_header(out: &mut [u8], count: usize, directory: usize) {
    out[..4].copy_from_slice(b"ABIF");
    out[4..6].copy_from_slice(&VERSION.to_be_bytes());
    let sizes = [count as u32, (ENTRY_LENGTH * count) as u32];
    let offset = (directory as u32).to_be_bytes();
    let kind = (DIRECTORY_TYPE, ENTRY_LENGTH as u16);
    write_entry(
        &mut out[6..6 + ENTRY_LENGTH],
        Tag::new(b"tdir", 1),
        kind,
        sizes,
        offset,
    );
    out[6 + ENTRY_LENGTH..HEADER_LENGTH].fill(0);
}

// The type's code and element size, the count and data size, and the offset field as it stands.
fn write_entry(out: &mut [u8], tag: Tag, kind: (i16, u16), sizes: [u32; 2], field: [u8; 4]) {
    out[0..4].copy_from_slice(&tag.name.to_be_bytes());
    out[4..8].copy_from_slice(&tag.number.to_be_bytes());
    out[8..10].copy_from_slice(&kind.0.to_be_bytes());
    out[10..12].copy_from_slice(&kind.1.to_be_bytes());
    out[12..16].copy_from_slice(&sizes[0].to_be_bytes());
    out[16..20].copy_from_slice(&sizes[1].to_be_bytes());
    out[20..24].copy_from_slice(&field);
    out[24..28].fill(0);
}

/// The element's size of a type that may be written.
pub fn element_size(code: i16) -> Option<usize> {
    match code {
        1 | 2 | 13 | 18 | 19 => Some(1),
        3 | 4 => Some(2),
        5 | 7 | 10 | 11 => Some(4),
        8 => Some(8),
        12 => Some(10),
        1024..=i16::MAX => Some(1),
        _ => None,
    }
}

fn is_above(tag: Tag, before: Tag) -> bool {
    (tag.name, tag.number) > (before.name, before.number)
}

fn is_allowed(code: i16, data: &[u8]) -> bool {
    match code {
        10 => data.chunks_exact(4).all(is_date),
        11 => data.chunks_exact(4).all(is_time),
        18 => matches!(data, [first, letters @ ..] if usize::from(*first) == letters.len()),
        19 => matches!(data, [letters @ .., 0] if !letters.contains(&0)),
        _ => true,
    }
}

fn is_date(element: &[u8]) -> bool {
    (1..=12).contains(&element[2]) && (1..=31).contains(&element[3])
}

fn is_time(element: &[u8]) -> bool {
    element[0] <= 23 && element[1] <= 59 && element[2] <= 59 && element[3] <= 99
}
