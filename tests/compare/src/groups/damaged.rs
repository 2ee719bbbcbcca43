//! Files with faults, in any format.

use super::compare_file;
use crate::damage::{changed, random_byte_changes, random_changes};
use crate::format::{Draft, Format};
use crate::random::Random;
use crate::report::Group;

const CHANGED_FILES: usize = 12_000;
const FILES_OF_CHANGED_BYTES: usize = 12_000;
const RANDOM_FILES: usize = 4000;
const LONGEST_SHORT_FILE: usize = 160;

pub fn compare_changed<F: Format>(group: &mut Group, changed: &F::Draft) {
    compare_file::<F>(group, &changed.bytes(), Some(changed));
}

pub fn single_changes<F: Format>(group: &mut Group) {
    for base in F::bases() {
        for change in F::all_changes(&base) {
            compare_changed::<F>(group, &changed::<F>(&base, &[change]));
        }
    }
}

pub fn pairs<F: Format>(group: &mut Group) {
    for base in F::bases() {
        let faults = F::certain_faults(&base);
        for (index, &first) in faults.iter().enumerate() {
            for &second in &faults[index + 1..] {
                compare_changed::<F>(group, &changed::<F>(&base, &[first, second]));
            }
        }
    }
}

pub fn several_changes<F: Format>(group: &mut Group) {
    let mut random = Random::new(22);
    for _ in 0..CHANGED_FILES {
        compare_changed::<F>(group, &random_changes::<F>(&mut random));
    }
}

pub fn changed_bytes<F: Format>(group: &mut Group) {
    let mut random = Random::new(23);
    for _ in 0..FILES_OF_CHANGED_BYTES {
        compare_file::<F>(group, &random_byte_changes::<F>(&mut random), None);
    }
}

pub fn random_bytes<F: Format>(group: &mut Group) {
    let mut random = Random::new(24);
    for _ in 0..RANDOM_FILES {
        compare_file::<F>(group, &F::random_tail(&mut random), None);
    }
}

pub fn short_files<F: Format>(group: &mut Group) {
    let mut random = Random::new(25);
    let sample = F::sample();
    for length in 0..=LONGEST_SHORT_FILE {
        let mut marked = random.bytes(length);
        let mark = length.min(4);
        marked[..mark].copy_from_slice(&F::MARK[..mark]);
        compare_file::<F>(group, &marked, None);
        compare_file::<F>(group, &random.bytes(length), None);
        compare_file::<F>(group, &vec![0; length], None);
        compare_file::<F>(group, &vec![0xFF; length], None);
        compare_file::<F>(group, &sample[..length.min(sample.len())], None);
    }
}
