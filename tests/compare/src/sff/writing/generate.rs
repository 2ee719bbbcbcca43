//! Reads that the writer accepts.

use super::read::Read;
use crate::random::Random;

/// A read of a random shape, in which all rules are kept.
pub fn sound_read(random: &mut Random, flows: usize) -> Read {
    let name_length = match random.below(12) {
        0 => 0,
        1 => random.between(25, 60),
        _ => random.between(1, 24),
    };
    let bases = match random.below(12) {
        0 | 1 => 0,
        2 => random.between(20, 300),
        _ => random.between(1, 15),
    };
    sized_read(
        random,
        flows,
        name_length,
        if flows == 0 { 0 } else { bases },
    )
}

/// A sound read of these lengths; without flows there are no bases.
pub fn sized_read(random: &mut Random, flows: usize, name_length: usize, bases: usize) -> Read {
    let name = random.bytes(name_length);
    let steps = sound_steps(random, flows, bases);
    let mut read = Read::new(&name, flows, &steps);
    read.flows
        .iter_mut()
        .for_each(|flow| *flow = random.next_u64() as u16);
    read.letters = random.bytes(bases);
    read.qualities = random.bytes(bases);
    read.clips = [0; 4].map(|_: u64| match random.below(6) {
        0 => random.between(0, bases.min(65_535)) as u64,
        1 => bases.min(65_535) as u64,
        _ => 0,
    });
    read
}

// The first step is at least 1, and the flows are often used up.
fn sound_steps(random: &mut Random, flows: usize, bases: usize) -> Vec<u8> {
    let mut left = flows;
    (0..bases)
        .map(|index| {
            let step = random.pick(&[0, 0, 1, 1, 1, 2, 3, 255]);
            let step = step.max(usize::from(index == 0)).min(left);
            left -= step;
            step as u8
        })
        .collect()
}
