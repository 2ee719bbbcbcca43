//! SFF: judging, all reads of a large file at once, and writing.

use crate::timing::compare_times;
use compare::answers::{Finished, Listed, Verdict};
use compare::random::Random;
use compare::refusal::Refusal;
use compare::sff::answers::{Read, READ_NUMBERS};
use compare::sff::writer::{self, LentRead};
use compare::sff::writing::generate::sized_read;
use compare::sff::{generate, library, reader};
use std::hint::black_box;

const ROUNDS: usize = 101;
const LEAST_LENGTH: usize = 50_000_000;
const LEAST_WRITTEN: usize = 10_000_000;
const FLOW_LETTERS: [u8; 800] = [b'T'; 800];
const KEY_LETTERS: &[u8] = b"TCAG";

/// Reads of 400 to 500 bases with 800 flows, and an index behind them.
pub fn instrument_file() -> Vec<u8> {
    let file = generate::instrument_file(&mut Random::new(1), LEAST_LENGTH).bytes();
    assert!(file.len() >= LEAST_LENGTH);
    file
}

pub fn judging(file: &[u8]) {
    let expected = Verdict::whole(file.len(), 0);
    assert_eq!(Verdict::from(reader::judge(file)), expected);
    assert_eq!(library::judge(file), expected);
    compare_times(
        &format!("judging an SFF file of {} bytes", file.len()),
        ROUNDS,
        || {
            black_box(library::judge(black_box(file)));
        },
        || {
            let _ = black_box(reader::judge(black_box(file)));
        },
    );
}

/// All reads in one call, against one walk that writes each read's numbers as it comes to it; each
/// side writes into a buffer of its own, which is not cleared between the calls.
pub fn all_reads(file: &[u8]) {
    let reads = library::header(file).reads as usize;
    let mut ours = vec![0; READ_NUMBERS * reads];
    let mut plain = vec![0; READ_NUMBERS * reads];
    let listed = Listed {
        refusal: 0,
        count: reads as u64,
    };
    assert_eq!(library::reads(file, 1, &mut ours), listed);
    assert_eq!(write_as_it_walks(file, &mut plain), Ok(()));
    assert!(ours == plain);
    assert!(ours.chunks(READ_NUMBERS).all(|read| read[0] == 0));
    compare_times(
        &format!("reading its {reads} reads at once"),
        ROUNDS,
        || {
            let out = black_box(&mut ours[..]);
            black_box(library::reads(black_box(file), 1, out));
        },
        || {
            let out = black_box(&mut plain[..]);
            let _ = black_box(write_as_it_walks(black_box(file), out));
        },
    );
}

fn write_as_it_walks(file: &[u8], out: &mut [u64]) -> Result<(), Refusal> {
    let mut slots = out.chunks_exact_mut(READ_NUMBERS);
    reader::every_read(file, |read| {
        if let Some(slot) = slots.next() {
            slot.copy_from_slice(&Read::from(read).numbers());
        }
    })
}

/// A file of reads of 400 to 500 bases with 800 flows, each side into a buffer of its own, which is
/// not cleared.
pub fn writing() {
    let mut random = Random::new(3);
    let mut owned = Vec::new();
    let mut length = (31 + FLOW_LETTERS.len() + KEY_LETTERS.len()).next_multiple_of(8);
    while length < LEAST_WRITTEN {
        let bases = random.between(400, 500);
        let read = sized_read(&mut random, FLOW_LETTERS.len(), 14, bases);
        length += read.size();
        owned.push(read);
    }
    let reads: Vec<LentRead> = owned.iter().map(|read| read.lent()).collect();
    let mut ours = vec![0; length];
    let mut plain = vec![0; length];
    let answer = write_plainly(&reads, &mut plain);
    assert_eq!(answer, Ok(length as u64));
    assert_eq!(write_by_library(&reads, &mut ours), Finished::from(answer));
    assert!(ours == plain);
    compare_times(
        &format!(
            "writing an SFF file of {length} bytes, {} reads",
            reads.len()
        ),
        ROUNDS,
        || {
            black_box(write_by_library(black_box(&reads), black_box(&mut ours)));
        },
        || {
            let _ = black_box(write_plainly(black_box(&reads), black_box(&mut plain)));
        },
    );
}

fn write_by_library(reads: &[LentRead], out: &mut [u8]) -> Finished {
    let mut state = library::begin(reads.len() as u32, &FLOW_LETTERS, KEY_LETTERS, out);
    for read in reads {
        state = library::add(state, read, out);
    }
    library::finish(state)
}

fn write_plainly(reads: &[LentRead], out: &mut [u8]) -> Result<u64, Refusal> {
    let mut state = writer::begin(reads.len() as u32, &FLOW_LETTERS, KEY_LETTERS, out)?;
    for read in reads {
        state = writer::add(state, read, out)?;
    }
    writer::finish(state)
}
