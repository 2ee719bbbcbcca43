//! An SFF writer written from the rules of the format alone.

use super::answers::State;
use super::reader::{FIXED_HEADER, FIXED_READ_HEADER};
use crate::refusal::Refusal;

const MARK_AND_VERSION: [u8; 8] = *b".sff\0\0\0\x01";
const FLOWGRAM_CODE: u8 = 1;
const ALIGNMENT: usize = 8;

/// A read as it is lent; its clips are quality left and right, adapter left and right.
#[derive(Clone, Copy, Debug)]
pub struct LentRead<'a> {
    pub name: &'a [u8],
    pub flows: &'a [u16],
    pub steps: &'a [u8],
    pub letters: &'a [u8],
    pub qualities: &'a [u8],
    pub clips: [u64; 4],
}

// The lengths of a read that fit their fields.
struct Lengths {
    header: u16,
    name: u16,
    bases: u32,
    clips: [u16; 4],
}

/// Writes the common header and returns the state behind it.
pub fn begin(
    reads: u32,
    flow_letters: &[u8],
    key_letters: &[u8],
    out: &mut [u8],
) -> Result<State, Refusal> {
    let flows = in_16_bits(flow_letters.len())?;
    let key = in_16_bits(key_letters.len())?;
    let letters = FIXED_HEADER + flow_letters.len() + key_letters.len();
    let length = in_16_bits(letters.next_multiple_of(ALIGNMENT))?;
    let room = out.get_mut(..usize::from(length));
    let header = room.ok_or(Refusal::OutputTooSmall)?;
    header[..8].copy_from_slice(&MARK_AND_VERSION);
    header[8..20].fill(0);
    header[20..24].copy_from_slice(&reads.to_be_bytes());
    header[24..26].copy_from_slice(&length.to_be_bytes());
    header[26..28].copy_from_slice(&key.to_be_bytes());
    header[28..30].copy_from_slice(&flows.to_be_bytes());
    header[30] = FLOWGRAM_CODE;
    write_parts(&mut header[FIXED_HEADER..], &[flow_letters, key_letters]);
    Ok(State {
        refusal: 0,
        reads: reads.into(),
        written: 0,
        flows: flows.into(),
        at: length.into(),
    })
}

fn in_16_bits(number: usize) -> Result<u16, Refusal> {
    u16::try_from(number).map_err(|_| Refusal::BadSizes)
}

// The parts back to back, and zeros behind them.
fn write_parts(mut out: &mut [u8], parts: &[&[u8]]) {
    for part in parts {
        let (front, rest) = out.split_at_mut(part.len());
        front.copy_from_slice(part);
        out = rest;
    }
    out.fill(0);
}

/// Writes the next read and returns the state behind it.
pub fn add(state: State, read: &LentRead, out: &mut [u8]) -> Result<State, Refusal> {
    if state.written >= state.reads {
        return Err(Refusal::BadSizes);
    }
    let lengths = lengths(&state, read)?;
    if !is_allowed(&state, read, &lengths) {
        return Err(Refusal::ForbiddenValue);
    }
    let header = usize::from(lengths.header);
    let data = 2 * read.flows.len() + 3 * read.letters.len();
    let size = header + data.next_multiple_of(ALIGNMENT);
    let at = usize::try_from(state.at).map_err(|_| Refusal::OutputTooSmall)?;
    let room = out.get_mut(at..).and_then(|rest| rest.get_mut(..size));
    let (header, data) = room.ok_or(Refusal::OutputTooSmall)?.split_at_mut(header);
    write_header(header, read.name, &lengths);
    write_data(data, read);
    Ok(State {
        refusal: 0,
        written: state.written + 1,
        at: state.at + size as u64,
        ..state
    })
}

fn lengths(state: &State, read: &LentRead) -> Result<Lengths, Refusal> {
    let bases = read.letters.len();
    let flows = u64::from(in_16_bits(read.flows.len())?);
    if flows != state.flows || read.steps.len() != bases || read.qualities.len() != bases {
        return Err(Refusal::BadSizes);
    }
    let header = (FIXED_READ_HEADER + read.name.len()).next_multiple_of(ALIGNMENT);
    let mut clips = [0; 4];
    for (slot, clip) in clips.iter_mut().zip(read.clips) {
        *slot = u16::try_from(clip).map_err(|_| Refusal::BadSizes)?;
    }
    Ok(Lengths {
        header: in_16_bits(header)?,
        name: in_16_bits(read.name.len())?,
        bases: u32::try_from(bases).map_err(|_| Refusal::BadSizes)?,
        clips,
    })
}

fn is_allowed(state: &State, read: &LentRead, lengths: &Lengths) -> bool {
    let mut clips = lengths.clips.into_iter();
    // Sums never fall, so that none passes the flows if the last does not.
    clips.all(|clip| u32::from(clip) <= lengths.bases)
        && read.steps.first() != Some(&0)
        && sum(read.steps) <= state.flows
}

// A chunk's sum fits 16 bits, in which more steps are added at once than in 64.
fn sum(steps: &[u8]) -> u64 {
    let chunks = steps.chunks(256);
    let sums = chunks.map(|chunk| chunk.iter().map(|&step| u16::from(step)).sum::<u16>());
    sums.map(u64::from).sum()
}

fn write_header(out: &mut [u8], name: &[u8], lengths: &Lengths) {
    out[0..2].copy_from_slice(&lengths.header.to_be_bytes());
    out[2..4].copy_from_slice(&lengths.name.to_be_bytes());
    out[4..8].copy_from_slice(&lengths.bases.to_be_bytes());
    for (slot, clip) in out[8..16].chunks_exact_mut(2).zip(lengths.clips) {
        slot.copy_from_slice(&clip.to_be_bytes());
    }
    write_parts(&mut out[FIXED_READ_HEADER..], &[name]);
}

fn write_data(out: &mut [u8], read: &LentRead) {
    let (flows, rest) = out.split_at_mut(2 * read.flows.len());
    for (slot, flow) in flows.chunks_exact_mut(2).zip(read.flows) {
        slot.copy_from_slice(&flow.to_be_bytes());
    }
    write_parts(rest, &[read.steps, read.letters, read.qualities]);
}

/// The length of the file, once the stated number of reads is written.
pub fn finish(state: State) -> Result<u64, Refusal> {
    if state.written == state.reads {
        Ok(state.at)
    } else {
        Err(Refusal::BadSizes)
    }
}
