//! Files with changed bytes, drawn and checked.

use crate::drawing::{check_all, Input, Wish, PLAIN};
use crate::{abif, gtc, sff};
use compare::abif::reader::open;
use compare::abif::Abif;
use compare::damage::{random_byte_changes, random_changes};
use compare::format::{Draft, Format};
use compare::gtc::Gtc;
use compare::random::Random;
use compare::report::Group;
use compare::sff::Sff;
use std::ops::Range;

const CHANGED: usize = 500;
const GENERATED: usize = 120;

pub fn abif(group: &mut Group) {
    let changed = abif_files(CHANGED);
    check_all(group, &changed, PLAIN);
    check_all(group, &changed[..CHANGED / 4], Wish::raw());
    check_all(group, &generated::<Abif>(), PLAIN);
}

pub fn sff(group: &mut Group) {
    let changed = sff_files(CHANGED);
    check_all(group, &changed, PLAIN);
    check_all(group, &changed, Wish::read(2));
    check_all(group, &changed, Wish::read(3));
    check_all(group, &generated::<Sff>(), PLAIN);
}

pub fn gtc(group: &mut Group) {
    check_all(group, &gtc_files(2 * CHANGED), PLAIN);
    check_all(group, &generated::<Gtc>(), PLAIN);
}

/// Runs with changes mostly in their directories.
pub fn abif_files(count: usize) -> Vec<Input> {
    let directory = |bytes: &[u8]| {
        let found = open(bytes).map_or(6..34, |it| it.place..it.place + 28 * it.count);
        vec![found.clone(), found, 0..34, 128..bytes.len()]
    };
    changed(&abif::files::runs(), count, directory)
}

/// Reads with changes mostly in their headers.
pub fn sff_files(count: usize) -> Vec<Input> {
    let headers = |bytes: &[u8]| vec![0..31, 40..100, 100..200, 0..bytes.len()];
    changed(&sff::files::runs(), count, headers)
}

/// SNPs with changes mostly in the table.
pub fn gtc_files(count: usize) -> Vec<Input> {
    let table = |bytes: &[u8]| vec![3..56, 8..56, 8..bytes.len()];
    changed(&gtc::files::files(), count, table)
}

// Up to three bytes of each file are changed, each in one of the places that count.
fn changed(
    files: &[Vec<u8>],
    count: usize,
    places: impl Fn(&[u8]) -> Vec<Range<usize>>,
) -> Vec<Input> {
    let mut random = Random::new(81);
    let mut inputs = Vec::new();
    for number in 0..count {
        let mut bytes = random.pick(files);
        for _ in 0..random.between(1, 3) {
            let range = random.pick(&places(&bytes));
            let place = random.between(range.start, range.end - 1) % bytes.len();
            bytes[place] = match random.below(4) {
                0 => bytes[place] ^ 1 << random.below(8),
                1 => bytes[place].wrapping_add(1),
                2 => random.pick(&[0, 1, 4, 0x7F, 0x80, 0xFF]),
                _ => random.next_u64() as u8,
            };
        }
        inputs.push(Input::new(format!("changed file {number}"), bytes));
    }
    inputs
}

// The files that the library is compared on.
fn generated<F: Format>() -> Vec<Input> {
    let mut random = Random::new(82);
    let mut inputs = Vec::new();
    for number in 0..GENERATED {
        let bytes = random_changes::<F>(&mut random).bytes();
        inputs.push(Input::new(format!("draft {number}"), bytes));
        let bytes = random_byte_changes::<F>(&mut random);
        inputs.push(Input::new(format!("random file {number}"), bytes));
    }
    inputs
}
