//! An SFF reader written from the rules of the format alone.

use super::answers::{self, READ_NUMBERS};
use crate::big_endian::{u16_at, u32_at, u64_at};
use crate::judged::Judged;
use crate::refusal::{Refusal, Refused};
use std::ops::Range;

const VERSION: [u8; 4] = [0, 0, 0, 1];
const FLOWGRAM_CODE: u8 = 1;
const ALIGNMENT: usize = 8;

/// The header's length up to the flow letters.
pub const FIXED_HEADER: usize = 31;
/// A read header's length up to the name.
pub const FIXED_READ_HEADER: usize = 16;

/// A common header that has passed all checks.
#[derive(Clone, Copy, Debug, PartialEq, Eq)]
pub struct Header {
    pub index_offset: u64,
    pub index_length: u32,
    pub reads: u32,
    pub length: usize,
    pub key_length: u16,
    pub flows: u16,
}

/// A read that has passed all checks; base positions count from one, all else is places.
#[derive(Clone, Debug, PartialEq, Eq)]
pub struct Read {
    pub start: usize,
    pub name: Range<usize>,
    pub bases: u32,
    pub quality_clip: [u16; 2],
    pub adapter_clip: [u16; 2],
    pub flows_start: usize,
    pub steps_start: usize,
    pub letters_start: usize,
    pub qualities_start: usize,
    pub first: u32,
    pub last: u32,
    pub insert: Range<usize>,
}

// A read whose header and data lie inside the file; `data` ends with the padding.
struct Frame<'a> {
    start: usize,
    fixed: &'a [u8],
    data: Range<usize>,
}

impl Frame<'_> {
    fn bases(&self) -> u32 {
        u32_at(self.fixed, 4)
    }
}

pub fn header(bytes: &[u8]) -> Result<Header, Refusal> {
    let fixed = bytes.get(..FIXED_HEADER).ok_or(Refusal::CutShort)?;
    if !fixed.starts_with(b".sff") {
        return Err(Refusal::OtherMark);
    }
    if fixed[4..8] != VERSION {
        return Err(Refusal::OtherVersion);
    }
    let header = Header {
        index_offset: u64_at(fixed, 8),
        index_length: u32_at(fixed, 16),
        reads: u32_at(fixed, 20),
        length: usize::from(u16_at(fixed, 24)),
        key_length: u16_at(fixed, 26),
        flows: u16_at(fixed, 28),
    };
    let needed = FIXED_HEADER + usize::from(header.flows) + usize::from(header.key_length);
    if fixed[30] != FLOWGRAM_CODE
        || header.length != needed.next_multiple_of(ALIGNMENT)
        || (header.index_offset == 0) != (header.index_length == 0)
    {
        return Err(Refusal::BadHeader);
    }
    if bytes.len() < header.length {
        return Err(Refusal::CutShort);
    }
    Ok(header)
}

// A position that moves from one boundary to the next.
struct Walk<'a> {
    bytes: &'a [u8],
    header: Header,
    position: usize,
    index_met: bool,
}

impl<'a> Walk<'a> {
    fn begin(bytes: &'a [u8]) -> Result<Walk<'a>, Refusal> {
        let header = header(bytes)?;
        Ok(Walk {
            bytes,
            header,
            position: header.length,
            index_met: false,
        })
    }

    // An absent index has the offset 0, which is no boundary.
    fn pass_index(&mut self) -> Result<(), Refusal> {
        if self.position as u64 == self.header.index_offset {
            let length = (self.header.index_length as usize).next_multiple_of(ALIGNMENT);
            if self.bytes.len() - self.position < length {
                return Err(Refusal::CutShort);
            }
            self.position += length;
            self.index_met = true;
        }
        Ok(())
    }

    fn pass_read(&mut self) -> Result<Frame<'a>, Refusal> {
        let frame = frame_at(self.bytes, self.position, self.header.flows)?;
        self.position = frame.data.end;
        Ok(frame)
    }

    fn next(&mut self) -> Result<Frame<'a>, Refusal> {
        self.pass_index()?;
        self.pass_read()
    }

    fn has_read(&self, number: u64) -> bool {
        (1..=u64::from(self.header.reads)).contains(&number)
    }
}

fn frame_at(bytes: &[u8], start: usize, flows: u16) -> Result<Frame<'_>, Refusal> {
    let rest = &bytes[start..];
    let fixed = rest.get(..FIXED_READ_HEADER).ok_or(Refusal::CutShort)?;
    let header_length = usize::from(u16_at(fixed, 0));
    let name_length = usize::from(u16_at(fixed, 2));
    if header_length != (FIXED_READ_HEADER + name_length).next_multiple_of(ALIGNMENT) {
        return Err(Refusal::BadSizes);
    }
    if rest.len() < header_length {
        return Err(Refusal::CutShort);
    }
    let data_length = 2 * usize::from(flows) + 3 * u32_at(fixed, 4) as usize;
    let data_length = data_length.next_multiple_of(ALIGNMENT);
    if rest.len() - header_length < data_length {
        return Err(Refusal::CutShort);
    }
    let data_start = start + header_length;
    Ok(Frame {
        start,
        fixed,
        data: data_start..data_start + data_length,
    })
}

pub fn judge(bytes: &[u8]) -> Result<Judged, Refused> {
    let in_no_read = |refusal: Refusal| refusal.at(0);
    let mut walk = Walk::begin(bytes).map_err(in_no_read)?;
    for number in 1..=walk.header.reads as usize {
        walk.pass_index().map_err(in_no_read)?;
        walk.pass_read().map_err(|refusal| refusal.at(number))?;
    }
    walk.pass_index().map_err(in_no_read)?;
    if walk.header.index_offset != 0 && !walk.index_met {
        return Err(Refusal::BadHeader.at(0));
    }
    Ok(Judged::up_to(walk.position, bytes))
}

/// The read with this number, from one.
pub fn read(bytes: &[u8], number: u64) -> Result<Read, Refusal> {
    let mut walk = Walk::begin(bytes)?;
    if !walk.has_read(number) {
        return Err(Refusal::NotThere);
    }
    for _ in 1..number {
        walk.next()?;
    }
    let frame = walk.next()?;
    contents(bytes, &frame, walk.header.flows)
}

/// Visits all reads in one walk, each as reading it by itself would answer.
pub fn every_read(
    bytes: &[u8],
    mut visit: impl FnMut(Result<Read, Refusal>),
) -> Result<(), Refusal> {
    let mut walk = Walk::begin(bytes)?;
    for _ in 0..walk.header.reads {
        let frame = walk.next()?;
        visit(contents(bytes, &frame, walk.header.flows));
    }
    Ok(())
}

fn contents(bytes: &[u8], frame: &Frame, flows: u16) -> Result<Read, Refusal> {
    let bases = frame.bases();
    let clips = [8, 10, 12, 14].map(|at| u16_at(frame.fixed, at));
    if clips.iter().any(|&clip| u32::from(clip) > bases) {
        return Err(Refusal::ForbiddenValue);
    }
    let steps_start = frame.data.start + 2 * usize::from(flows);
    let letters_start = steps_start + bases as usize;
    let steps = &bytes[steps_start..letters_start];
    // Sums never fall, so that none passes the flows if the last does not.
    if steps.first() == Some(&0) || sum(steps) > u64::from(flows) {
        return Err(Refusal::ForbiddenValue);
    }
    let [quality_left, quality_right, adapter_left, adapter_right] = clips;
    let first = u32::from(quality_left.max(adapter_left).max(1));
    let last = right_end(quality_right, bases).min(right_end(adapter_right, bases));
    let name_start = frame.start + FIXED_READ_HEADER;
    Ok(Read {
        start: frame.start,
        name: name_start..name_start + usize::from(u16_at(frame.fixed, 2)),
        bases,
        quality_clip: [quality_left, quality_right],
        adapter_clip: [adapter_left, adapter_right],
        flows_start: frame.data.start,
        steps_start,
        letters_start,
        qualities_start: letters_start + bases as usize,
        first,
        last,
        insert: insert(letters_start, first, last),
    })
}

// A right clip of 0 is none.
fn right_end(clip: u16, bases: u32) -> u32 {
    if clip == 0 {
        bases
    } else {
        clip.into()
    }
}

fn insert(letters_start: usize, first: u32, last: u32) -> Range<usize> {
    if first > last {
        letters_start..letters_start
    } else {
        letters_start + first as usize - 1..letters_start + last as usize
    }
}

// A chunk's sum fits 16 bits, in which more steps are added at once than in 64.
fn sum(steps: &[u8]) -> u64 {
    let sums = steps.chunks(256).map(|chunk| {
        let sum: u16 = chunk.iter().map(|&step| u16::from(step)).sum();
        u64::from(sum)
    });
    sums.sum()
}

/// Writes the reads from this number on to the front of `out`, as many as are left and fit, each as
/// reading it by itself would answer; returns how many.
pub fn reads(bytes: &[u8], first: u64, out: &mut [u64]) -> Result<usize, Refusal> {
    let mut walk = Walk::begin(bytes)?;
    if !walk.has_read(first) {
        return Err(Refusal::NotThere);
    }
    let left = u64::from(walk.header.reads) + 1 - first;
    let count = left.min((out.len() / READ_NUMBERS) as u64);
    if count == 0 {
        return Err(Refusal::OutputTooSmall);
    }
    for _ in 1..first {
        walk.next()?;
    }
    let frames: Result<Vec<Frame>, Refusal> = (0..count).map(|_| walk.next()).collect();
    for (slot, frame) in out.chunks_exact_mut(READ_NUMBERS).zip(&frames?) {
        let read = contents(bytes, frame, walk.header.flows);
        slot.copy_from_slice(&answers::Read::from(read).numbers());
    }
    Ok(count as usize)
}

/// Where the reads start, as far as the walk comes without a refusal.
pub fn reached(bytes: &[u8]) -> Vec<usize> {
    let mut found = Vec::new();
    if let Ok(mut walk) = Walk::begin(bytes) {
        while found.len() < walk.header.reads as usize {
            match walk.next() {
                Ok(frame) => found.push(frame.start),
                Err(_) => break,
            }
        }
    }
    found
}

/// The flow, from one, that this base, from one, of the read with this number was called from.
pub fn flow_of_base(bytes: &[u8], number: u64, base: u64) -> Result<u64, Refusal> {
    let read = read(bytes, number)?;
    if base == 0 || base > u64::from(read.bases) {
        return Err(Refusal::NoSuchElement);
    }
    Ok(sum(&bytes[read.steps_start..][..base as usize]))
}
