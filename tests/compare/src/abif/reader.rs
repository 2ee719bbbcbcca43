//! An ABIF reader written from the rules of the format alone.

use crate::big_endian::{four_at, u16_at, u32_at, u64_at};
use crate::judged::Judged;
use crate::refusal::{Refusal, Refused};
use std::fmt;
use std::ops::Range;

const HEADER_LENGTH: usize = 128;
const ENTRY_LENGTH: usize = 28;
const TAG_LENGTH: usize = 8;
const LOWEST_OFFSET: i32 = 128;
const MOST_ENTRIES: i32 = 999;
const MOST_INLINE_BYTES: usize = 4;
const DIRECTORY_TAG: Tag = Tag::new(b"tdir", 1);
const DIRECTORY_TYPE: i16 = 1023;

#[repr(C)]
#[derive(Clone, Copy, PartialEq, Eq)]
pub struct Tag {
    pub name: u32,
    pub number: i32,
}

impl Tag {
    pub const fn new(name: &[u8; 4], number: i32) -> Tag {
        let name = u32::from_be_bytes(*name);
        Tag { name, number }
    }
}

impl fmt::Debug for Tag {
    fn fmt(&self, out: &mut fmt::Formatter) -> fmt::Result {
        let letters = self.name.to_be_bytes();
        write!(out, "\"{}\" {}", letters.escape_ascii(), self.number)
    }
}

#[derive(Clone, Copy, Debug, PartialEq, Eq)]
pub enum Type {
    Byte,
    Char,
    Word,
    Short,
    Long,
    Float,
    Double,
    Date,
    Time,
    Thumb,
    Bool,
    PString,
    CString,
    Raw,
}

impl Type {
    pub fn from_code(code: i16) -> Option<Type> {
        Some(match code {
            1 => Type::Byte,
            2 => Type::Char,
            3 => Type::Word,
            4 => Type::Short,
            5 => Type::Long,
            7 => Type::Float,
            8 => Type::Double,
            10 => Type::Date,
            11 => Type::Time,
            12 => Type::Thumb,
            13 => Type::Bool,
            18 => Type::PString,
            19 => Type::CString,
            6 | 9 | 14..=17 | 20 | 128 | 256 | 384 => Type::Raw,
            1024..=i16::MAX => Type::Raw,
            _ => return None,
        })
    }

    /// The element's size in bytes, which a raw type leaves open.
    pub fn element_size(self) -> Option<usize> {
        match self {
            Type::Byte | Type::Char | Type::Bool | Type::PString | Type::CString => Some(1),
            Type::Word | Type::Short => Some(2),
            Type::Long | Type::Float | Type::Date | Type::Time => Some(4),
            Type::Double => Some(8),
            Type::Thumb => Some(10),
            Type::Raw => None,
        }
    }

    fn is_whole_number(self) -> bool {
        matches!(
            self,
            Type::Byte
                | Type::Char
                | Type::Word
                | Type::Short
                | Type::Long
                | Type::PString
                | Type::CString
        )
    }
}

/// One 28-byte entry as it stands in the file; in memory it is C's record.
#[repr(C)]
#[derive(Clone, Copy, Debug, PartialEq, Eq)]
pub struct Entry {
    pub tag: Tag,
    pub type_code: i16,
    pub element_size: i16,
    pub count: i32,
    pub data_size: i32,
    pub data_offset: i32,
    pub data_handle: i32,
}

#[derive(Clone, Copy, Debug, PartialEq, Eq)]
pub struct Directory {
    pub place: usize,
    pub count: usize,
}

impl Directory {
    fn end(self) -> usize {
        self.place_of_entry(self.count)
    }

    fn place_of_entry(self, index: usize) -> usize {
        self.place + ENTRY_LENGTH * index
    }

    pub fn entries(self, bytes: &[u8]) -> impl Iterator<Item = Entry> + '_ {
        let table = &bytes[self.place..self.end()];
        let entries = table.chunks_exact(ENTRY_LENGTH);
        entries.map(|fields| entry_at(fields, 0))
    }
}

/// An item whose entry has passed all checks.
#[derive(Clone, Copy, Debug)]
pub struct Item {
    pub type_code: i16,
    pub kind: Type,
    pub count: u64,
    pub start: usize,
    pub length: usize,
}

impl Item {
    fn range(self) -> Range<usize> {
        self.start..self.start + self.length
    }
}

/// An element's value, floats as their bits.
#[derive(Clone, Copy, Debug)]
pub enum Value {
    Whole(i64),
    Single(u32),
    Real(u64),
    Date(i16, u8, u8),
    Time([u8; 4]),
    Bool(bool),
    Thumb(i32, i32, u8, u8),
}

pub fn open(bytes: &[u8]) -> Result<Directory, Refusal> {
    if bytes.len() < HEADER_LENGTH {
        return Err(Refusal::CutShort);
    }
    if !bytes.starts_with(b"ABIF") {
        return Err(Refusal::OtherMark);
    }
    if !(100..=199).contains(&i16_at(bytes, 4)) {
        return Err(Refusal::OtherVersion);
    }
    directory_from(&entry_at(bytes, 6), bytes.len())
}

fn directory_from(header: &Entry, file_length: usize) -> Result<Directory, Refusal> {
    if header.tag != DIRECTORY_TAG
        || header.type_code != DIRECTORY_TYPE
        || usize::try_from(header.element_size) != Ok(ENTRY_LENGTH)
        || header.count < 0
    {
        return Err(Refusal::BadHeader);
    }
    if header.count > MOST_ENTRIES {
        return Err(Refusal::TooManyEntries);
    }
    let length = ENTRY_LENGTH as i64 * i64::from(header.count);
    if i64::from(header.data_size) < length {
        return Err(Refusal::BadHeader);
    }
    if header.data_offset < LOWEST_OFFSET {
        return Err(Refusal::BadOffset);
    }
    if i64::from(header.data_offset) + length > file_length as i64 {
        return Err(Refusal::CutShort);
    }
    Ok(Directory {
        place: header.data_offset as usize,
        count: header.count as usize,
    })
}

pub fn judge(bytes: &[u8]) -> Result<Judged, Refused> {
    let directory = open(bytes).map_err(|refusal| refusal.at(0))?;
    let table = &bytes[directory.place..directory.end()];
    let mut extent = directory.end().max(HEADER_LENGTH);
    for (index, entry) in table.chunks_exact(ENTRY_LENGTH).enumerate() {
        let refused = |refusal: Refusal| refusal.at(index + 1);
        let mut earlier = table.chunks_exact(ENTRY_LENGTH).take(index);
        if earlier.any(|other| other[..TAG_LENGTH] == entry[..TAG_LENGTH]) {
            return Err(refused(Refusal::TagTwice));
        }
        let item = item_at(bytes, directory.place_of_entry(index)).map_err(refused)?;
        if item.length > MOST_INLINE_BYTES {
            extent = extent.max(item.start + item.length);
        }
    }
    Ok(Judged::up_to(extent, bytes))
}

pub fn lookup(bytes: &[u8], tag: Tag) -> Result<Item, Refusal> {
    let directory = open(bytes)?;
    let entries = directory.entries(bytes).enumerate();
    let mut found = entries.filter(|(_, entry)| entry.tag == tag);
    let (index, _) = found.next().ok_or(Refusal::NotThere)?;
    if found.next().is_some() {
        return Err(Refusal::TagTwice);
    }
    item_at(bytes, directory.place_of_entry(index))
}

// The item whose entry stands at this place.
fn item_at(bytes: &[u8], place: usize) -> Result<Item, Refusal> {
    let entry = entry_at(bytes, place);
    let kind = Type::from_code(entry.type_code).ok_or(Refusal::TypeNotHandled)?;
    if !sizes_agree(kind, &entry) {
        return Err(Refusal::BadSizes);
    }
    let length = entry.data_size as usize;
    let start = if length <= MOST_INLINE_BYTES {
        place + 20
    } else if entry.data_offset < LOWEST_OFFSET {
        return Err(Refusal::BadOffset);
    } else {
        entry.data_offset as usize
    };
    if start + length > bytes.len() {
        return Err(Refusal::CutShort);
    }
    Ok(Item {
        type_code: entry.type_code,
        kind,
        count: entry.count as u64,
        start,
        length,
    })
}

fn sizes_agree(kind: Type, entry: &Entry) -> bool {
    if entry.element_size < 0 || entry.count < 0 || entry.data_size < 0 {
        return false;
    }
    match kind.element_size() {
        None => true,
        Some(size) => {
            entry.element_size as usize == size
                && entry.data_size as u64 == size as u64 * entry.count as u64
        }
    }
}

pub fn element(bytes: &[u8], tag: Tag, index: u64) -> Result<Value, Refusal> {
    let item = lookup(bytes, tag)?;
    let size = item.kind.element_size().ok_or(Refusal::TypeNotHandled)?;
    if index == 0 || index > item.count {
        return Err(Refusal::NoSuchElement);
    }
    let start = item.start + (index - 1) as usize * size;
    let data = &bytes[start..start + size];
    match item.kind {
        Type::Float => Ok(Value::Single(u32_at(data, 0))),
        Type::Double => Ok(Value::Real(u64_at(data, 0))),
        Type::Date => date(i16_at(data, 0), data[2], data[3]),
        Type::Time => time(four_at(data, 0)),
        Type::Bool => Ok(Value::Bool(data[0] != 0)),
        Type::Thumb => Ok(Value::Thumb(
            i32_at(data, 0),
            i32_at(data, 4),
            data[8],
            data[9],
        )),
        kind => Ok(Value::Whole(whole_number(kind, data))),
    }
}

fn whole_number(kind: Type, data: &[u8]) -> i64 {
    match kind {
        Type::Char => (data[0] as i8).into(),
        Type::Word => u16_at(data, 0).into(),
        Type::Short => i16_at(data, 0).into(),
        Type::Long => i32_at(data, 0).into(),
        _ => data[0].into(),
    }
}

fn date(year: i16, month: u8, day: u8) -> Result<Value, Refusal> {
    if (1..=12).contains(&month) && (1..=31).contains(&day) {
        Ok(Value::Date(year, month, day))
    } else {
        Err(Refusal::ForbiddenValue)
    }
}

fn time(parts: [u8; 4]) -> Result<Value, Refusal> {
    let [hour, minute, second, hundredth] = parts;
    if hour <= 23 && minute <= 59 && second <= 59 && hundredth <= 99 {
        Ok(Value::Time(parts))
    } else {
        Err(Refusal::ForbiddenValue)
    }
}

/// Where the text stands, without its length byte or its closing zero.
pub fn text(bytes: &[u8], tag: Tag) -> Result<Range<usize>, Refusal> {
    let item = lookup(bytes, tag)?;
    let data = &bytes[item.range()];
    let end = item.start + item.length;
    match (item.kind, data) {
        (Type::PString, [length, letters @ ..]) if usize::from(*length) == letters.len() => {
            Ok(item.start + 1..end)
        }
        (Type::CString, [letters @ .., 0]) if !letters.contains(&0) => Ok(item.start..end - 1),
        (Type::PString | Type::CString, _) => Err(Refusal::ForbiddenValue),
        _ => Err(Refusal::TypeNotHandled),
    }
}

/// Copies all entries, sound or not, in file order to the front of `out`; returns how many they are.
pub fn list(bytes: &[u8], out: &mut [Entry]) -> Result<usize, Refusal> {
    let directory = open(bytes)?;
    if out.len() < directory.count {
        return Err(Refusal::OutputTooSmall);
    }
    for (slot, entry) in out.iter_mut().zip(directory.entries(bytes)) {
        *slot = entry;
    }
    Ok(directory.count)
}

/// Writes the elements from number `first` on to the front of `out`, as many as are left and fit, and
/// returns how many.
pub fn whole_numbers(
    bytes: &[u8],
    tag: Tag,
    first: u64,
    out: &mut [i64],
) -> Result<usize, Refusal> {
    let item = lookup(bytes, tag)?;
    if !item.kind.is_whole_number() {
        return Err(Refusal::TypeNotHandled);
    }
    if first == 0 || first > item.count {
        return Err(Refusal::NoSuchElement);
    }
    let skipped = (first - 1) as usize;
    let count = out.len().min(item.count as usize - skipped);
    if count == 0 {
        return Err(Refusal::OutputTooSmall);
    }
    let size = item.length / item.count as usize;
    copy_numbers(
        item.kind,
        &bytes[item.range()][skipped * size..],
        &mut out[..count],
    );
    Ok(count)
}

fn copy_numbers(kind: Type, data: &[u8], out: &mut [i64]) {
    match kind {
        Type::Char => fill(out, data.iter().map(|&byte| byte as i8)),
        Type::Word => fill(out, data.chunks_exact(2).map(|two| u16_at(two, 0))),
        Type::Short => fill(out, data.chunks_exact(2).map(|two| i16_at(two, 0))),
        Type::Long => fill(out, data.chunks_exact(4).map(|four| i32_at(four, 0))),
        _ => fill(out, data.iter().copied()),
    }
}

fn fill<T: Into<i64>>(out: &mut [i64], numbers: impl Iterator<Item = T>) {
    for (slot, number) in out.iter_mut().zip(numbers) {
        *slot = number.into();
    }
}

/// The directory's place and count that an opened file carries, right or wrong.
#[derive(Clone, Copy, Debug, PartialEq, Eq)]
pub struct Carried {
    pub place: u64,
    pub count: u64,
}

impl Carried {
    // Opening's refusal, and then that of a place or count other than opening's.
    fn check(self, bytes: &[u8]) -> Result<(), Refusal> {
        let directory = open(bytes)?;
        if self.place != directory.place as u64 || self.count != directory.count as u64 {
            return Err(Refusal::BadHeader);
        }
        Ok(())
    }
}

pub fn lookup_opened(bytes: &[u8], carried: Carried, tag: Tag) -> Result<Item, Refusal> {
    carried.check(bytes)?;
    lookup(bytes, tag)
}

pub fn element_opened(
    bytes: &[u8],
    carried: Carried,
    tag: Tag,
    index: u64,
) -> Result<Value, Refusal> {
    carried.check(bytes)?;
    element(bytes, tag, index)
}

pub fn text_opened(bytes: &[u8], carried: Carried, tag: Tag) -> Result<Range<usize>, Refusal> {
    carried.check(bytes)?;
    text(bytes, tag)
}

pub fn list_opened(bytes: &[u8], carried: Carried, out: &mut [Entry]) -> Result<usize, Refusal> {
    carried.check(bytes)?;
    list(bytes, out)
}

// Without the hint a listing calls this for each entry, in some four times the time.
#[inline]
fn entry_at(bytes: &[u8], place: usize) -> Entry {
    let fields = &bytes[place..place + ENTRY_LENGTH];
    Entry {
        tag: Tag {
            name: u32_at(fields, 0),
            number: i32_at(fields, 4),
        },
        type_code: i16_at(fields, 8),
        element_size: i16_at(fields, 10),
        count: i32_at(fields, 12),
        data_size: i32_at(fields, 16),
        data_offset: i32_at(fields, 20),
        data_handle: i32_at(fields, 24),
    }
}

fn i16_at(bytes: &[u8], at: usize) -> i16 {
    u16_at(bytes, at) as i16
}

fn i32_at(bytes: &[u8], at: usize) -> i32 {
    u32_at(bytes, at) as i32
}
