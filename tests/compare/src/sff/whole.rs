//! Files made for one thing each, without a fault but where lengths do not fit their fields.

use super::answers::{self, READ_NUMBERS};
use super::draft::{Draft, Index, Read};
use super::generate::{instrument_file, raise};
use super::{reader, Sff};
use crate::format::Files;
use crate::groups::damaged::compare_changed;
use crate::groups::whole::compare_whole;
use crate::random::Random;
use crate::refusal::Refusal;
use crate::report::Group;

const FILES_WITH_PARTS: usize = 2000;
const FILE_LIKE_THE_INSTRUMENTS: usize = 1_000_000;
const MORE_READS_THAN_16_BITS: usize = 65_600;
/// As many as a header with a key of four letters has room for.
const MOST_FLOWS: u16 = 65_528 - 31 - 4;

pub fn names_and_sizes(group: &mut Group) {
    let name = [b'n'; 24];
    for name_length in 0..=name.len() {
        for bases in [0, 1, 2, 3, 5, 8] {
            for flows in [0, 1, 4, 7] {
                let steps = vec![1; bases];
                let read = Read::new(&name[..name_length], flows, &steps);
                let other = Read::new(b"other", flows, &[1]);
                for behind in [None, Some(0), Some(1), Some(2)] {
                    let index = behind.map(|behind| Index::new(behind, b"index"));
                    let reads = vec![read.clone(), other.clone()];
                    compare_whole::<Sff>(group, &Draft::new(flows, 4, reads, index));
                }
            }
        }
    }
}

pub fn index_places(group: &mut Group) {
    for count in 0..=4 {
        let reads = vec![Read::new(b"read", 3, &[1, 1]); count];
        for behind in 0..=count {
            for length in 1..=17 {
                let index = Index::new(behind, &vec![0xA5; length]);
                let draft = Draft::new(3, 4, reads.clone(), Some(index));
                compare_whole::<Sff>(group, &draft);
            }
        }
    }
}

pub fn clips(group: &mut Group) {
    for bases in [0_u16, 1, 2, 5] {
        let mut values = vec![0, 1, 2, bases.saturating_sub(1), bases, bases + 1, u16::MAX];
        values.sort_unstable();
        values.dedup();
        for choice in 0..values.len().pow(4) {
            let digit = |place| choice / values.len().pow(place) % values.len();
            let clips = [0, 1, 2, 3].map(|place| values[digit(place)]);
            clipped(group, usize::from(bases), clips);
        }
    }
    for bases in [65_534, 65_535, 65_536, 70_000] {
        for clips in [[0; 4], [1, 65_535, 2, 0], [65_535; 4], [65_534; 4]] {
            clipped(group, bases, clips);
        }
    }
}

fn clipped(group: &mut Group, bases: usize, clips: [u16; 4]) {
    let mut steps = vec![0; bases];
    steps.iter_mut().take(1).for_each(|first| *first = 1);
    let mut read = Read::new(b"clipped", 4, &steps);
    read.clips = clips;
    compare_whole::<Sff>(group, &Draft::new(4, 4, vec![read], None));
}

/// Sums at the flows and around them, and past the numbers of 8 and of 16 bits.
pub fn flow_steps(group: &mut Group) {
    for flows in [0_u16, 1, 4, 254, 255, 256, 800, MOST_FLOWS] {
        for bases in [1, 2, 3, 300] {
            let limit = usize::from(flows);
            let mut totals = vec![0, 1, 2, limit, limit + 1, limit + 255, limit + 256];
            totals.extend([256, 65_535, 65_536, limit + 65_536, usize::MAX]);
            totals.push(limit.saturating_sub(1));
            for total in totals {
                for first in [0, 1, 2] {
                    let mut steps = vec![0; bases];
                    steps[0] = first;
                    raise(&mut steps, total);
                    let read = Read::new(b"steps", flows, &steps);
                    compare_whole::<Sff>(group, &Draft::new(flows, 4, vec![read], None));
                }
            }
        }
    }
}

/// Lengths at the bounds of their fields; of those that do not fit, the low 16 bits are written.
pub fn lengths(group: &mut Group) {
    for letters in (65_485..=65_512).chain([65_536, 65_569, 98_304, 131_063, 131_070]) {
        for few in [0, 4] {
            let many = (letters - few).min(65_535) as u16;
            let rest = (letters - usize::from(many)) as u16;
            for (flows, key_length) in [(rest, many), (many, rest)] {
                let read = Read::new(b"read", flows, &[1]);
                let draft = Draft::new(flows, key_length, vec![read], None);
                fits_or_not(group, &draft, letters + 31);
            }
        }
    }
    for name_length in (65_500..=65_535).chain([32_760, 32_768]) {
        let name = vec![b'n'; name_length];
        let reads = vec![Read::new(&name, 4, &[1]), Read::new(b"", 4, &[1])];
        fits_or_not(group, &Draft::new(4, 4, reads, None), name_length + 16);
    }
    for length in [65_535, 65_536, 65_537, 100_000] {
        let reads = vec![Read::new(b"read", 4, &[1]); 2];
        let index = Index::new(1, &vec![1; length]);
        compare_whole::<Sff>(group, &Draft::new(4, 4, reads, Some(index)));
    }
}

fn fits_or_not(group: &mut Group, draft: &Draft, length: usize) {
    if length.next_multiple_of(8) <= usize::from(u16::MAX) {
        compare_whole::<Sff>(group, draft);
    } else {
        compare_changed::<Sff>(group, draft);
    }
}

pub fn long_files(group: &mut Group) {
    let mut random = Random::new(13);
    for count in [11, 40, 100, 255, 256, 257, 400, 499, 500, 500, 500] {
        compare_whole::<Sff>(group, &Sff::long_file(&mut random, count));
    }
    let like = instrument_file(&mut random, FILE_LIKE_THE_INSTRUMENTS);
    compare_whole::<Sff>(group, &like);
    let reads = vec![Read::new(b"", 0, &[]); MORE_READS_THAN_16_BITS];
    compare_whole::<Sff>(group, &Draft::new(0, 0, reads, None));
}

/// The reader finds the very parts that a file was made of, by number, in one walk and at once.
pub fn parts(group: &mut Group) {
    let mut random = Random::new(14);
    for _ in 0..FILES_WITH_PARTS {
        let draft = Sff::random_file(&mut random, 12);
        let bytes = draft.bytes();
        group.input();
        let mut walked = Vec::new();
        let walk = reader::every_read(&bytes, |read| walked.push(read));
        let places = draft.layout().reads;
        let all = walk.is_ok() && walked.len() == places.len() && reader::reached(&bytes) == places;
        group.check(all, &bytes, || format!("reads built at {places:?}"));
        for ((number, read), built) in (1..).zip(&walked).zip(&draft.reads) {
            let by_number = reader::read(&bytes, number);
            group.check(*read == by_number, &bytes, || {
                format!("by walk {read:?}, by number {by_number:?}")
            });
            if let Ok(read) = read {
                check_parts(group, &bytes, read, built);
            }
        }
        let records = walked.into_iter().map(answers::Read::from);
        let numbers: Vec<u64> = records.flat_map(|read| read.numbers()).collect();
        check_at_once(group, &bytes, &numbers);
    }
}

// All reads of the file, as these numbers.
fn check_at_once(group: &mut Group, bytes: &[u8], numbers: &[u64]) {
    let mut out = vec![0; numbers.len()];
    let written = reader::reads(bytes, 1, &mut out);
    let count = numbers.len() / READ_NUMBERS;
    let holds = match count {
        0 => written == Err(Refusal::NotThere),
        _ => written == Ok(count) && out == numbers,
    };
    group.check(holds, bytes, || {
        format!("at once {written:?} {out:?}, by walk {numbers:?}")
    });
}

fn check_parts(group: &mut Group, bytes: &[u8], read: &reader::Read, built: &Read) {
    let bases = built.letters.len();
    let right = |clip: u16| if clip == 0 { bases } else { clip.into() };
    let [quality_left, quality_right, adapter_left, adapter_right] = built.clips;
    let last = right(quality_right).min(right(adapter_right));
    let skipped = usize::from(quality_left.max(adapter_left)).saturating_sub(1);
    let insert = built.letters[..last].get(skipped..).unwrap_or(&[]);
    let flow_values = built.flow_values.len();
    let found = [
        &bytes[read.name.clone()],
        &bytes[read.flows_start..][..flow_values],
        &bytes[read.steps_start..][..bases],
        &bytes[read.letters_start..][..bases],
        &bytes[read.qualities_start..][..bases],
        &bytes[read.insert.clone()],
    ];
    let made = [
        &built.name[..],
        &built.flow_values,
        &built.steps,
        &built.letters,
        &built.qualities,
        insert,
    ];
    group.check(found == made, bytes, || {
        format!("reader's parts {found:?}, built from {made:?}")
    });
}
