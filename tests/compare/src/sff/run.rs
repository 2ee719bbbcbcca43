//! A small sequencing run as an instrument stores it: reads whose letters are called from their flows.

use super::draft::{Draft, Index, Read};
use crate::random::Random;

const FLOWS: usize = 168;
const FLOW_ORDER: [u8; 4] = *b"TACG";
const KEY: &[u8] = b"TCAG";
const NAMES: [&[u8]; 3] = [b"E3MFGYR02JWQ7T", b"E3MFGYR02F7Z9K", b"E3MFGYR02HB4XD"];
/// The flow, from none, from which on the next stretch of one letter is long, and how long it is.
const LONG_STRETCHES: [(usize, usize); 3] = [(60, 5), (90, 4), (30, 4)];

/// A stretch of one letter, called from one flow, from none.
struct Stretch {
    flow: usize,
    length: usize,
}

/// Three reads, the second with adapter clips and the third with no clips, and an index.
pub fn run() -> Draft {
    let mut random = Random::new(62);
    let mut reads: Vec<Read> = (0..3).map(|index| read(&mut random, index)).collect();
    let [first, second] = [0, 1].map(|index| reads[index].bases as u16);
    reads[0].clips = [5, first - 9, 0, 0];
    reads[1].clips = [5, second - 6, 11, second - 15];
    let index = Index::new(3, b".mft1.00 and where each read starts");
    let mut draft = Draft::new(FLOWS as u16, KEY.len() as u16, reads, Some(index));
    draft.letters.splice(FLOWS.., KEY.iter().copied());
    draft
}

fn read(random: &mut Random, index: usize) -> Read {
    let stretches = stretches(random, LONG_STRETCHES[index]);
    let mut read = Read::new(NAMES[index], FLOWS as u16, &steps(&stretches));
    read.letters = stretches
        .iter()
        .flat_map(|stretch| vec![flow_letter(stretch.flow); stretch.length])
        .collect();
    read.qualities = qualities(random, &stretches);
    let values = flow_values(random, &stretches);
    read.flow_values = values.into_iter().flat_map(u16::to_be_bytes).collect();
    read
}

fn flow_letter(flow: usize) -> u8 {
    FLOW_ORDER[flow % FLOW_ORDER.len()]
}

// The key's letters, then others for as many flows as there are.
fn stretches(random: &mut Random, long: (usize, usize)) -> Vec<Stretch> {
    let mut stretches = key_stretches();
    let mut long_is_due = true;
    loop {
        let flow = stretches.last().map_or(0, |stretch| stretch.flow) + random.between(1, 3);
        if flow >= FLOWS {
            return stretches;
        }
        let mut length = random.pick(&[1, 1, 1, 1, 1, 1, 1, 2, 2, 3]);
        if long_is_due && flow >= long.0 {
            length = long.1;
            long_is_due = false;
        }
        stretches.push(Stretch { flow, length });
    }
}

fn key_stretches() -> Vec<Stretch> {
    let mut flow = 0;
    let mut stretches = Vec::new();
    for &letter in KEY {
        while flow_letter(flow) != letter {
            flow += 1;
        }
        stretches.push(Stretch { flow, length: 1 });
    }
    stretches
}

// A letter's distance in flows from the one before it, the first one's from the flow before the first.
fn steps(stretches: &[Stretch]) -> Vec<u8> {
    let mut steps = Vec::new();
    let mut position = 0;
    for stretch in stretches {
        steps.push((stretch.flow + 1 - position) as u8);
        steps.extend(vec![0; stretch.length - 1]);
        position = stretch.flow + 1;
    }
    steps
}

// Hundredths of a letter: near the stretch's length, or noise.
fn flow_values(random: &mut Random, stretches: &[Stretch]) -> Vec<u16> {
    let mut values: Vec<u16> = (0..FLOWS).map(|_| random.below(16) as u16).collect();
    for stretch in stretches {
        let spread = 8 + 3 * stretch.length;
        let least = 100 * stretch.length - spread;
        values[stretch.flow] = random.between(least, least + 2 * spread) as u16;
    }
    values
}

// Lower in long stretches, and lower the later the flow.
fn qualities(random: &mut Random, stretches: &[Stretch]) -> Vec<u8> {
    let mut qualities = Vec::new();
    for stretch in stretches {
        for position in 0..stretch.length {
            let lost = 4 * position + stretch.flow / 12 + random.below(4);
            qualities.push((40 - lost) as u8);
        }
    }
    qualities
}
