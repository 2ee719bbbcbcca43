//! Many reads, and reads of many bases.

use super::generate::{sized_read, sound_read};
use super::read::Read;
use super::session::Session;
use crate::output::Output;
use crate::random::Random;
use crate::report::Group;
use crate::sff::answers::State;
use crate::sff::library;
use crate::sff::writer::{self, LentRead};

const MORE_READS_THAN_16_BITS: usize = 65_600;
const PAST_24_BITS: usize = (1 << 24) + 5;
const PAST_32_BITS: usize = 1 << 32;
/// The fewest bases that their number has no room for.
const TOO_MANY_BASES: usize = PAST_32_BITS;

/// Reads of all shapes, reads like the instrument's, and more reads than 16 bits count.
pub fn long_sessions(group: &mut Group) {
    let mut random = Random::new(75);
    let small: Vec<Read> = (0..3000).map(|_| sound_read(&mut random, 9)).collect();
    long_session(group, &small, 9);
    let like: Vec<Read> = (0..300)
        .map(|_| {
            let bases = random.between(400, 500);
            sized_read(&mut random, 800, 14, bases)
        })
        .collect();
    long_session(group, &like, 800);
    let none = vec![Read::new(b"", 0, &[]); MORE_READS_THAN_16_BITS];
    long_session(group, &none, 0);
}

// Each hundredth read is refused before it is taken.
fn long_session(group: &mut Group, reads: &[Read], flows: usize) {
    let sizes: usize = reads.iter().map(Read::size).sum();
    let room = (31 + flows + 4).next_multiple_of(8) + sizes;
    let letters = vec![b'A'; flows];
    let mut session = Session::begin(group, reads.len() as u32, [&letters, b"TCAG"], room);
    for (index, read) in reads.iter().enumerate() {
        if index % 100 == 0 {
            let mut refused = read.clone();
            let clip = read.letters.len() as u64 + 1;
            refused.clips[3] = clip;
            session.expect(group, &refused, if clip > 65_535 { 9 } else { 11 });
            session.expect_finish(group, 9);
        }
        session.expect(group, read, 0);
    }
    session.expect(group, &reads[0], 9);
    session.expect_finish(group, 0);
}

/// More bases than 8, 16 and 32 bits count, and steps whose sums wrap there.
pub fn many_bases(group: &mut Group) {
    let mut random = Random::new(76);
    for bases in [255, 256, 65_535, 65_536, 65_537, 100_000] {
        let read = sized_read(&mut random, 500, 5, bases);
        long_session(group, &[read.clone(), read], 500);
    }
    let longest = sized_read(&mut random, 500, 5, PAST_24_BITS);
    long_session(group, &[longest], 500);
    for wrapped in [1_usize << 16, 1 << 24, 1 << 32] {
        let mut steps = vec![255; wrapped / 255];
        steps.push((wrapped % 255 + 3) as u8);
        let read = Read::new(b"wraps", 400, &steps);
        let room = if wrapped > 1 << 20 {
            1000
        } else {
            read.size() + 1000
        };
        let letters = [b'T'; 400];
        let mut session = Session::begin(group, 1, [&letters, b""], room);
        session.expect(group, &read, 11);
        session.expect_finish(group, 9);
    }
    too_many(group);
}

// The lists are one and the same: zeros that no call has a reason to touch all of.
fn too_many(group: &mut Group) {
    let zeros = vec![0; TOO_MANY_BASES];
    let state = State {
        reads: 1,
        flows: 3,
        at: 8,
        ..State::default()
    };
    for (bases, refusal) in [(TOO_MANY_BASES, 9), (TOO_MANY_BASES - 1, 11)] {
        group.input();
        let read = LentRead {
            name: b"long",
            flows: &[1, 2, 3],
            steps: &zeros[..bases],
            letters: &zeros[..bases],
            qualities: &zeros[..bases],
            clips: [0; 4],
        };
        let mut outputs = [Output::new(300), Output::new(300)];
        let answer = library::add(state, &read, outputs[0].lent());
        let expected = state.after(writer::add(state, &read, outputs[1].lent()));
        let right = answer == expected && answer.refusal == refusal;
        group.check(right, &[], || {
            format!("{bases} bases: library {answer:?}, writer {expected:?}")
        });
        let untouched = outputs.iter().all(|output| output.is_untouched_from(0));
        group.check(untouched, &[], || {
            format!("{bases} bases: the output is changed")
        });
    }
}

/// An output whose room 32 bits do not count: a header at its front, a read at its end.
pub fn past_32_bits(group: &mut Group) {
    group.input();
    let read = Read::new(b"far", 4, &[1, 1, 1]);
    let bytes = read.draft().bytes();
    let place = PAST_32_BITS + 3;
    let mut out = vec![0; place + bytes.len()];
    let begun = library::begin(1, b"TACG", b"TCAG", &mut out[..place]);
    let header = out[..48].to_vec();
    let right = begun.refusal == 0 && begun.at == 40 && header.starts_with(b".sff");
    group.check(right, &header, || format!("begun {begun:?}"));
    let state = State {
        at: place as u64,
        ..begun
    };
    for (less, refusal) in [(1, 13), (0, 0)] {
        let room = out.len() - less;
        let after = library::add(state, &read.lent(), &mut out[..room]);
        let expected = match refusal {
            0 => State {
                written: 1,
                at: room as u64,
                ..state
            },
            _ => State { refusal, ..state },
        };
        let there = out[place..] == bytes;
        let right = after == expected && there == (refusal == 0) && out[..48] == header;
        group.check(right, &out[place..], || {
            format!("room {room}: library {after:?}, expected {expected:?}")
        });
    }
}
