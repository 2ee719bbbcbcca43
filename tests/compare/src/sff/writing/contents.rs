//! Clips and flow steps at the bounds of what a read allows.

use super::bounds::one_read;
use super::faults::WIDE;
use super::read::Read;
use crate::report::Group;
use crate::sff::generate::raise;

/// As many as a header with a key of four letters has room for.
const MOST_FLOWS: usize = 65_528 - 31 - 4;

fn clip_refusal(bases: u64, clips: [u64; 4]) -> u64 {
    if clips.iter().any(|&clip| clip > 65_535) {
        9
    } else if clips.iter().any(|&clip| clip > bases) {
        11
    } else {
        0
    }
}

/// Every choice of four clips at the bounds, each wide number alone, and more bases than 16 bits.
pub fn clips(group: &mut Group) {
    for bases in [0, 1, 3_u64] {
        let mut read = Read::new(b"clipped", 4, &vec![1; bases as usize]);
        let values = [0, bases, bases + 1, 65_535, 65_536];
        for choice in 0..values.len().pow(4) {
            read.clips = [0, 1, 2, 3].map(|place| values[choice / 5_usize.pow(place) % 5]);
            one_read(group, &read, clip_refusal(bases, read.clips));
        }
        for which in 0..4 {
            for clip in WIDE.into_iter().chain([bases + 65_536]) {
                read.clips = [0; 4];
                read.clips[which] = clip;
                one_read(group, &read, clip_refusal(bases, read.clips));
            }
        }
    }
    for bases in [65_534, 65_535, 65_536, 70_000_u64] {
        let mut steps = vec![0; bases as usize];
        steps[0] = 1;
        let mut read = Read::new(b"clipped", 4, &steps);
        for which in 0..4 {
            for clip in [65_534, 65_535, 65_536, bases, bases + 1] {
                read.clips = [1; 4];
                read.clips[which] = clip;
                one_read(group, &read, clip_refusal(bases, read.clips));
            }
        }
    }
}

/// Sums at the flows and around them, and past the numbers of 8 and of 16 bits.
pub fn flow_steps(group: &mut Group) {
    for flows in [0, 1, 4, 254, 255, 256, 800, MOST_FLOWS] {
        for bases in [1, 2, 3, 300] {
            let mut totals = vec![0, 1, 2, flows, flows + 1, flows + 255, flows + 256];
            totals.extend([256, 65_535, 65_536, flows + 65_536, usize::MAX]);
            totals.push(flows.saturating_sub(1));
            for total in totals {
                for first in [0, 1, 2] {
                    let mut steps = vec![0; bases];
                    steps[0] = first;
                    raise(&mut steps, total);
                    stepped(group, flows, &steps);
                }
            }
        }
    }
    for middle in 0..=6 {
        stepped(group, 5, &[1, middle, 0, 1]);
        stepped(group, 5, &[1, 0, middle]);
        stepped(group, 5, &[middle]);
    }
}

fn stepped(group: &mut Group, flows: usize, steps: &[u8]) {
    let sum: usize = steps.iter().map(|&step| usize::from(step)).sum();
    let allowed = steps[0] > 0 && sum <= flows;
    let read = Read::new(b"steps", flows, steps);
    one_read(group, &read, if allowed { 0 } else { 11 });
}
