//! Whole files of many shapes.

use super::draft::{Draft, Index, Read};
use super::Sff;
use crate::format::Files;
use crate::random::Random;

const LARGEST_STEP: usize = 255;

impl Files for Sff {
    type Draft = Draft;

    fn random_file(random: &mut Random, most: usize) -> Draft {
        let flows = match random.below(20) {
            0 => 0,
            1 => 1,
            2 => random.between(100, 400) as u16,
            _ => random.between(2, 12) as u16,
        };
        let count = match random.below(20) {
            0 | 1 => 0,
            2..=15 => random.between(1, most.min(4)),
            _ => random.between(1, most),
        };
        file_of(random, flows, count)
    }

    fn long_file(random: &mut Random, count: usize) -> Draft {
        let flows = random.between(1, 20) as u16;
        file_of(random, flows, count)
    }
}

fn file_of(random: &mut Random, flows: u16, count: usize) -> Draft {
    let key_length = random.pick(&[0, 1, 3, 4, 4, 4, 4, 9]);
    let reads = (0..count).map(|_| random_read(random, flows)).collect();
    let index = random_index(random, flows, count);
    let mut draft = Draft::new(flows, key_length, reads, index);
    loosen(random, &mut draft);
    draft
}

fn random_read(random: &mut Random, flows: u16) -> Read {
    let name_length = match random.below(12) {
        0 => 0,
        1 => random.between(25, 60),
        2 => 14,
        _ => random.between(1, 24),
    };
    let name = if random.one_in(12) {
        small_read(random, flows).bytes()
    } else {
        random.bytes(name_length)
    };
    let bases = match random.below(12) {
        0 | 1 => 0,
        2 => random.between(20, 300),
        _ => random.between(1, 15),
    };
    let steps = random_steps(random, bases, flows);
    let mut read = Read::new(&name, flows, &steps);
    read.clips = [0; 4].map(|_: u16| random_clip(random, bases));
    if random.one_in(2) {
        read.flow_values = random.bytes(read.flow_values.len());
        read.letters = random.bytes(bases);
        read.qualities = random.bytes(bases);
    }
    read
}

// Bytes that are a read, to stand where the walk does not come.
fn small_read(random: &mut Random, flows: u16) -> Read {
    let bases = random.below(4);
    let steps = random_steps(random, bases, flows);
    Read::new(b"inner", flows, &steps)
}

fn random_clip(random: &mut Random, bases: usize) -> u16 {
    let clip = match random.below(60) {
        0 => bases + 1,
        1 => usize::from(u16::MAX),
        2..=30 => 0,
        31..=35 => bases,
        _ => random.between(0, bases),
    };
    clip as u16
}

// Mostly steps as they should be.
fn random_steps(random: &mut Random, bases: usize, flows: u16) -> Vec<u8> {
    let sizes = [0, 0, 0, 1, 1, 1, 2, 3, LARGEST_STEP];
    let mut steps = sound_steps(random, bases, flows, &sizes);
    if bases == 0 {
        return steps;
    }
    match random.below(24) {
        0 => steps[0] = 0,
        1 => raise(&mut steps, usize::from(flows) + 1),
        2 => steps[random.below(bases)] = LARGEST_STEP as u8,
        3..=10 => raise(&mut steps, usize::from(flows)),
        _ => {}
    }
    steps
}

// Steps of these sizes while flows are left, the first at least 1.
fn sound_steps(random: &mut Random, bases: usize, flows: u16, sizes: &[usize]) -> Vec<u8> {
    let mut left = usize::from(flows);
    (0..bases)
        .map(|index| {
            let least = usize::from(index == 0).min(left);
            let step = random.pick(sizes).clamp(least, left.min(LARGEST_STEP));
            left -= step;
            step as u8
        })
        .collect()
}

/// Raises the last steps until the sum is this total, or as near to it as steps come.
pub fn raise(steps: &mut [u8], total: usize) {
    let sum: usize = steps.iter().map(|&step| usize::from(step)).sum();
    let mut missing = total.saturating_sub(sum);
    for step in steps.iter_mut().rev() {
        let more = missing.min(LARGEST_STEP - usize::from(*step));
        *step += more as u8;
        missing -= more;
    }
}

fn random_index(random: &mut Random, flows: u16, count: usize) -> Option<Index> {
    let contents = match random.below(10) {
        0..=3 => return None,
        4 => small_read(random, flows).bytes(),
        _ => {
            let length = random.between(1, 40);
            random.bytes(length)
        }
    };
    Some(Index::new(random.between(0, count), &contents))
}

// Changes what a reader must not mind: letters, padding, bytes behind the end.
fn loosen(random: &mut Random, draft: &mut Draft) {
    if random.one_in(2) {
        draft.letters = random.bytes(draft.letters.len());
        draft.header_padding = random.bytes(draft.header_padding.len());
        for read in &mut draft.reads {
            read.name_padding = random.bytes(read.name_padding.len());
            read.padding = random.bytes(read.padding.len());
        }
        if let Some(index) = &mut draft.index {
            let padding = index.length as usize..index.bytes.len();
            index.bytes[padding.clone()].copy_from_slice(&random.bytes(padding.len()));
        }
    }
    draft.tail = match random.below(8) {
        0 => small_read(random, draft.flows).bytes(),
        1 => vec![0; 16],
        2 | 3 => {
            let length = random.below(40);
            random.bytes(length)
        }
        _ => Vec::new(),
    };
}

/// A file like those of the instrument, of at least this length, with an index at its end.
pub fn instrument_file(random: &mut Random, least_length: usize) -> Draft {
    let flows = 800;
    let mut reads = Vec::new();
    let mut length = 0;
    while length < least_length {
        let read = instrument_read(random, flows);
        length += read.bytes().len();
        reads.push(read);
    }
    let index = Index::new(reads.len(), &random.bytes(20 * reads.len()));
    Draft::new(flows, 4, reads, Some(index))
}

fn instrument_read(random: &mut Random, flows: u16) -> Read {
    let name: Vec<u8> = (0..14)
        .map(|_| random.pick(b"ABCDEFGHIJKLMNOPQRSTUVWXYZ0123456789"))
        .collect();
    let bases = random.between(400, 500);
    let steps = sound_steps(random, bases, flows, &[0, 1, 1, 2, 2, 3]);
    let mut read = Read::new(&name, flows, &steps);
    read.flow_values = random.bytes(read.flow_values.len());
    read.letters = (0..bases).map(|_| random.pick(b"ACGT")).collect();
    read.qualities = (0..bases).map(|_| random.between(10, 40) as u8).collect();
    read.clips = [5, random.between(bases - 60, bases) as u16, 0, 0];
    read
}
