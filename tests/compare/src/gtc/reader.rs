//! A GTC reader written from the rules of the format alone.

use super::answers::{self, SNP_NUMBERS};
use crate::judged::Judged;
use crate::little_endian::{u16_at, u32_at};
use crate::refusal::{Refusal, Refused};
use std::ops::Range;

const VERSION: u8 = 5;
const MOST_ENTRIES: i32 = 999;
const NUMBER_OF_SNPS: u16 = 1;
const TRANSFORMATIONS: u16 = 400;
const RAW_X: u16 = 1000;
const RAW_Y: u16 = 1001;
const GENOTYPES: u16 = 1002;
const BASE_CALLS: u16 = 1003;
const SCORES: u16 = 1004;

pub const HEADER_LENGTH: usize = 8;
pub const ENTRY_LENGTH: usize = 6;
pub const TRANSFORMATION_LENGTH: usize = 52;

/// A genotype's letters and how many of them are B, by its code; both are 0 for NC and NULL.
const ALLELES: [[u8; 2]; 46] = alleles();

const fn alleles() -> [[u8; 2]; 46] {
    let mut table = [[0; 2]; 46];
    table[1] = [2, 0];
    table[2] = [2, 1];
    table[3] = [2, 2];
    table[5] = [1, 0];
    table[6] = [1, 1];
    let mut letters = 3;
    while letters <= 8 {
        let mut of_them_b = 0;
        while of_them_b <= letters {
            let code = letters * (letters + 1) / 2 + 1 + of_them_b;
            table[code] = [letters as u8, of_them_b as u8];
            of_them_b += 1;
        }
        letters += 1;
    }
    table
}

/// How an id's item is laid out.
#[derive(Clone, Copy)]
enum Shape {
    /// A number in the entry's offset field.
    Value,
    Text,
    /// Elements of this size behind their count.
    Array(usize),
    /// An array that has one element for each SNP.
    SnpArray(usize),
    Scanner,
    /// So many bytes.
    Block(usize),
}

impl Shape {
    fn of(id: u16) -> Option<Shape> {
        Some(match id {
            1 | 2 | 3 | 1010 => Shape::Value,
            10 | 11 | 12 | 100 | 101 | 200 | 201 | 300 | 1016 => Shape::Text,
            400 => Shape::Array(TRANSFORMATION_LENGTH),
            500 | 501 => Shape::Array(2),
            1000 | 1001 | 1003 => Shape::SnpArray(2),
            1002 => Shape::SnpArray(1),
            1004 | 1012 | 1013 => Shape::SnpArray(4),
            1005 => Shape::Scanner,
            1006 | 1008 | 1009 => Shape::Block(4),
            1007 => Shape::Block(1),
            1011 => Shape::Block(16),
            1014 | 1015 => Shape::Block(6),
            _ => return None,
        })
    }
}

/// One entry of the table, with the place of its offset field.
#[derive(Clone, Copy)]
struct Entry {
    id: u16,
    offset: u32,
    field: usize,
}

/// An item whose entry has passed all checks.
#[derive(Clone, Debug, PartialEq, Eq)]
pub struct Item {
    pub id: u16,
    pub count: u64,
    pub part: Range<usize>,
    end: usize,
}

#[derive(Clone, Copy, Debug, PartialEq, Eq)]
pub struct Snp {
    pub code: u8,
    pub ploidy: u8,
    pub b_alleles: u8,
    pub calls: [u8; 2],
    pub score_bits: u32,
    pub x: u16,
    pub y: u16,
}

/// A version and twelve floats, laid out as in C.
#[repr(C)]
#[derive(Clone, Copy, Debug, Default)]
pub struct Transformation {
    pub version: i32,
    pub offset_x: f32,
    pub offset_y: f32,
    pub scale_x: f32,
    pub scale_y: f32,
    pub shear: f32,
    pub theta: f32,
    pub reserved: [f32; 6],
}

/// A transformation with the place of its bytes, and with the bits of its floats, which a float
/// does not keep for sure where they are those of a NaN.
#[derive(Clone, Copy, Debug)]
pub struct PlacedTransformation {
    pub start: usize,
    pub value: Transformation,
    pub bits: [u32; 12],
}

// Takes the pieces of an item one after the other.
struct Front<'a> {
    bytes: &'a [u8],
    at: usize,
}

impl Front<'_> {
    fn take(&mut self, length: usize) -> Result<Range<usize>, Refusal> {
        let piece = self.at..self.at + length;
        if piece.end > self.bytes.len() {
            return Err(Refusal::CutShort);
        }
        self.at = piece.end;
        Ok(piece)
    }

    fn take_text(&mut self) -> Result<Range<usize>, Refusal> {
        let length = self.take(1)?;
        self.take(self.bytes[length.start].into())
    }

    fn take_count(&mut self) -> Result<u32, Refusal> {
        let count = self.take(4)?;
        let count = u32_at(self.bytes, count.start);
        if (count as i32) < 0 {
            return Err(Refusal::BadSizes);
        }
        Ok(count)
    }

    fn take_elements(&mut self, count: u32, size: usize) -> Result<Range<usize>, Refusal> {
        self.take(count as usize * size)
    }

    fn take_scanner(&mut self) -> Result<(), Refusal> {
        self.take_text()?;
        self.take(4)?;
        self.take(4)?;
        self.take_text()?;
        self.take_text()?;
        Ok(())
    }
}

struct Table<'a> {
    bytes: &'a [u8],
    entries: &'a [u8],
}

impl<'a> Table<'a> {
    fn of(bytes: &'a [u8]) -> Result<Table<'a>, Refusal> {
        let header = bytes.get(..HEADER_LENGTH).ok_or(Refusal::CutShort)?;
        if !header.starts_with(b"gtc") {
            return Err(Refusal::OtherMark);
        }
        if header[3] != VERSION {
            return Err(Refusal::OtherVersion);
        }
        let count = u32_at(header, 4) as i32;
        if count < 0 {
            return Err(Refusal::BadHeader);
        }
        if count > MOST_ENTRIES {
            return Err(Refusal::TooManyEntries);
        }
        let entries = bytes[HEADER_LENGTH..].get(..ENTRY_LENGTH * count as usize);
        let entries = entries.ok_or(Refusal::CutShort)?;
        Ok(Table { bytes, entries })
    }

    fn end(&self) -> usize {
        HEADER_LENGTH + self.entries.len()
    }

    fn entries(&self) -> impl Iterator<Item = Entry> + 'a {
        let fields = (HEADER_LENGTH + 2..).step_by(ENTRY_LENGTH);
        let entries = self.entries.chunks_exact(ENTRY_LENGTH).zip(fields);
        entries.map(|(entry, field)| Entry {
            id: u16_at(entry, 0),
            offset: u32_at(entry, 2),
            field,
        })
    }

    fn find(&self, id: u16) -> Result<Entry, Refusal> {
        let mut found = self.entries().filter(|entry| entry.id == id);
        let entry = found.next().ok_or(Refusal::NotThere)?;
        if found.next().is_some() {
            return Err(Refusal::TagTwice);
        }
        Ok(entry)
    }

    fn item(&self, entry: Entry, shape: Shape) -> Result<Item, Refusal> {
        let mut front = Front {
            bytes: self.bytes,
            at: entry.field,
        };
        if !matches!(shape, Shape::Value) {
            front.at = entry.offset as usize;
            if (entry.offset as i32) < 0 || front.at < self.end() {
                return Err(Refusal::BadOffset);
            }
        }
        let (part, element_size) = self.part(&mut front, shape)?;
        Ok(Item {
            id: entry.id,
            count: (part.len() / element_size) as u64,
            part,
            end: front.at,
        })
    }

    // What is handed out of the item that the front stands at, and the size of what it counts.
    fn part(&self, front: &mut Front, shape: Shape) -> Result<(Range<usize>, usize), Refusal> {
        let start = front.at;
        match shape {
            Shape::Value => Ok((front.take(4)?, 1)),
            Shape::Text => Ok((front.take_text()?, 1)),
            Shape::Array(size) => {
                let count = front.take_count()?;
                Ok((front.take_elements(count, size)?, size))
            }
            Shape::SnpArray(size) => {
                let count = front.take_count()?;
                if count != self.find(NUMBER_OF_SNPS)?.offset {
                    return Err(Refusal::BadSizes);
                }
                Ok((front.take_elements(count, size)?, size))
            }
            Shape::Scanner => {
                front.take_scanner()?;
                Ok((start..front.at, 1))
            }
            Shape::Block(length) => Ok((front.take(length)?, 1)),
        }
    }
}

pub fn judge(bytes: &[u8]) -> Result<Judged, Refused> {
    let table = Table::of(bytes).map_err(|refusal| refusal.at(0))?;
    let mut extent = table.end();
    let mut unjudged = 0;
    for (index, entry) in table.entries().enumerate() {
        let Some(shape) = Shape::of(entry.id) else {
            unjudged += 1;
            continue;
        };
        if table.entries().take(index).any(|it| it.id == entry.id) {
            return Err(Refusal::TagTwice.at(index + 1));
        }
        let item = table.item(entry, shape);
        let item = item.map_err(|refusal| refusal.at(index + 1))?;
        extent = extent.max(item.end);
    }
    Ok(Judged {
        unjudged,
        ..Judged::up_to(extent, bytes)
    })
}

/// The item with this id.
pub fn lookup(bytes: &[u8], id: u16) -> Result<Item, Refusal> {
    let table = Table::of(bytes)?;
    let shape = Shape::of(id).ok_or(Refusal::TypeNotHandled)?;
    table.item(table.find(id)?, shape)
}

/// The ids of the table in file order.
pub fn ids(bytes: &[u8]) -> Vec<u16> {
    match Table::of(bytes) {
        Ok(table) => table.entries().map(|entry| entry.id).collect(),
        Err(_) => Vec::new(),
    }
}

/// The five arrays that hold the SNPs' records, one element of each for a SNP.
pub struct SnpArrays<'a> {
    genotypes: &'a [u8],
    base_calls: &'a [u8],
    scores: &'a [u8],
    x: &'a [u8],
    y: &'a [u8],
}

impl<'a> SnpArrays<'a> {
    pub fn of(bytes: &'a [u8]) -> Result<SnpArrays<'a>, Refusal> {
        let elements = |id| lookup(bytes, id).map(|item| &bytes[item.part]);
        Ok(SnpArrays {
            genotypes: elements(GENOTYPES)?,
            base_calls: elements(BASE_CALLS)?,
            scores: elements(SCORES)?,
            x: elements(RAW_X)?,
            y: elements(RAW_Y)?,
        })
    }

    pub fn count(&self) -> usize {
        self.genotypes.len()
    }

    // How many SNPs stand before the one with this number, from one.
    fn before(&self, number: u64) -> Result<usize, Refusal> {
        if number == 0 || number > self.count() as u64 {
            return Err(Refusal::NoSuchElement);
        }
        Ok(number as usize - 1)
    }

    /// The record of the SNP with this number, from one.
    pub fn snp(&self, number: u64) -> Result<Snp, Refusal> {
        let at = self.before(number)?;
        record(
            self.genotypes[at],
            &self.base_calls[2 * at..2 * at + 2],
            &self.scores[4 * at..4 * at + 4],
            &self.x[2 * at..2 * at + 2],
            &self.y[2 * at..2 * at + 2],
        )
    }

    // The arrays without the SNPs before this number, from one.
    fn from(&self, number: u64) -> Result<SnpArrays<'a>, Refusal> {
        let at = self.before(number)?;
        Ok(SnpArrays {
            genotypes: &self.genotypes[at..],
            base_calls: &self.base_calls[2 * at..],
            scores: &self.scores[4 * at..],
            x: &self.x[2 * at..],
            y: &self.y[2 * at..],
        })
    }

    fn records(&self) -> impl Iterator<Item = Result<Snp, Refusal>> + 'a {
        let calls = self.base_calls.chunks_exact(2);
        let scores = self.scores.chunks_exact(4);
        let x = self.x.chunks_exact(2);
        let y = self.y.chunks_exact(2);
        let parts = self.genotypes.iter().zip(calls).zip(scores).zip(x).zip(y);
        parts.map(|((((&code, calls), score), x), y)| record(code, calls, score, x, y))
    }
}

fn is_call(letter: u8) -> bool {
    matches!(letter, b'A' | b'C' | b'G' | b'T' | b'-')
}

fn record(code: u8, calls: &[u8], score: &[u8], x: &[u8], y: &[u8]) -> Result<Snp, Refusal> {
    if usize::from(code) >= ALLELES.len() || !is_call(calls[0]) || !is_call(calls[1]) {
        return Err(Refusal::ForbiddenValue);
    }
    let [ploidy, b_alleles] = ALLELES[usize::from(code)];
    Ok(Snp {
        code,
        ploidy,
        b_alleles,
        calls: [calls[0], calls[1]],
        score_bits: u32_at(score, 0),
        x: u16_at(x, 0),
        y: u16_at(y, 0),
    })
}

/// The record of the SNP with this number, from one.
pub fn snp(bytes: &[u8], number: u64) -> Result<Snp, Refusal> {
    SnpArrays::of(bytes)?.snp(number)
}

/// Writes the SNPs from this number on to the front of `out`, as many as are left and fit, each as
/// reading it by itself would answer; returns how many.
pub fn snps(bytes: &[u8], first: u64, out: &mut [u64]) -> Result<usize, Refusal> {
    let wanted = SnpArrays::of(bytes)?.from(first)?;
    let count = wanted.count().min(out.len() / SNP_NUMBERS);
    if count == 0 {
        return Err(Refusal::OutputTooSmall);
    }
    let slots = out.chunks_exact_mut(SNP_NUMBERS);
    for (slot, snp) in slots.zip(wanted.records()) {
        slot.copy_from_slice(&answers::Snp::from(snp).numbers());
    }
    Ok(count)
}

/// The transformation with this number, from one.
pub fn transformation(bytes: &[u8], number: u64) -> Result<PlacedTransformation, Refusal> {
    let item = lookup(bytes, TRANSFORMATIONS)?;
    if number == 0 || number > item.count {
        return Err(Refusal::NoSuchElement);
    }
    let start = item.part.start + TRANSFORMATION_LENGTH * (number as usize - 1);
    let fields = &bytes[start..start + TRANSFORMATION_LENGTH];
    let bits = [1, 2, 3, 4, 5, 6, 7, 8, 9, 10, 11, 12].map(|index| u32_at(fields, 4 * index));
    let [offset_x, offset_y, scale_x, scale_y, shear, theta, reserved @ ..] =
        bits.map(f32::from_bits);
    let value = Transformation {
        version: u32_at(fields, 0) as i32,
        offset_x,
        offset_y,
        scale_x,
        scale_y,
        shear,
        theta,
        reserved,
    };
    Ok(PlacedTransformation { start, value, bits })
}

/// Normalised intensities, with the cosine and the sine of the transformation's theta.
pub fn normalise(by: &Transformation, x: u16, y: u16, cosine: f32, sine: f32) -> [f32; 2] {
    let moved_x = f32::from(x) - by.offset_x;
    let moved_y = f32::from(y) - by.offset_y;
    let turned_x = cosine * moved_x + sine * moved_y;
    let turned_y = -sine * moved_x + cosine * moved_y;
    let sheared_x = turned_x - by.shear * turned_y;
    [sheared_x / by.scale_x, turned_y / by.scale_y]
}
