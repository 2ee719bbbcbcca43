//! Sessions with one rule broken in a read, and with two.

use super::faults::{all_faults, Fault, FIRST_NAME_TOO_LONG};
use super::generate::sized_read;
use super::read::Read;
use super::session::{finish, Session};
use crate::random::Random;
use crate::report::Group;

// Small sound reads of different shapes that the changes are made to.
fn bases() -> Vec<Read> {
    let mut random = Random::new(71);
    let mut full = Read::new(b"full", 4, &[1, 1, 2]);
    full.clips = [1, 3, 2, 2];
    vec![
        full,
        Read::new(b"first", 4, &[1, 1, 1]),
        Read::new(b"", 9, &[9]),
        Read::new(b"no bases", 4, &[]),
        Read::new(b"no flows", 0, &[]),
        sized_read(&mut random, 12, 11, 9),
    ]
}

// A session of three reads with this one, sound, already written, and room for all.
fn session(group: &mut Group, base: &Read, room: usize) -> Session {
    let letters = vec![b'T'; base.flows.len()];
    let mut session = Session::begin(group, 3, [&letters, b"TCAG"], room);
    session.expect(group, base, 0);
    session
}

fn room_for(base: &Read, reads: usize) -> usize {
    (31 + base.flows.len() + 4).next_multiple_of(8) + reads * base.size()
}

/// Every single change, behind a sound read; sound reads follow, and the file is finished.
pub fn alone(group: &mut Group) {
    for base in bases() {
        for fault in all_faults(&base) {
            let mut changed = base.clone();
            fault.apply(&mut changed);
            let mut session = session(group, &base, room_for(&base, 3) + changed.size());
            session.add(group, &changed);
            for _ in session.state.written..3 {
                session.expect(group, &base, 0);
            }
            session.expect_finish(group, 0);
        }
    }
}

/// A change that surely breaks one rule, that rule's place in the order of checks, its refusal.
#[derive(Clone, Copy)]
struct Certain {
    fault: Fault,
    rank: u8,
    refusal: u64,
}

fn certain_faults(read: &Read) -> Vec<Certain> {
    let bases = read.letters.len();
    let flows = read.flows.len();
    let mut lengths = vec![
        Fault::Name(FIRST_NAME_TOO_LONG),
        Fault::Flows(flows + 1),
        Fault::Steps(bases + 1),
        Fault::Letters(bases + 2),
        Fault::Qualities(bases + 3),
    ];
    lengths.extend([0, 1, 2, 3].map(|which| Fault::Clip(which, 65_536)));
    let mut contents: Vec<Fault> = [0, 1, 2, 3]
        .map(|which| Fault::Clip(which, bases as u64 + 1))
        .into();
    if bases > 0 {
        contents.extend([Fault::Step(0, 0), Fault::Step(bases - 1, 255)]);
    }
    let certain = |rank, refusal| {
        move |fault| Certain {
            fault,
            rank,
            refusal,
        }
    };
    let lengths = lengths.into_iter().map(certain(0, 9));
    lengths
        .chain(contents.into_iter().map(certain(1, 11)))
        .collect()
}

/// Of two broken rules the first in the order of checks is told, then with too little room, then
/// past the stated number of reads.
pub fn pairs(group: &mut Group) {
    for base in bases() {
        let faults = certain_faults(&base);
        for first in &faults {
            for second in &faults {
                if is_same_clip(first.fault, second.fault) {
                    continue;
                }
                let mut read = base.clone();
                first.fault.apply(&mut read);
                second.fault.apply(&mut read);
                let told = if first.rank <= second.rank {
                    first
                } else {
                    second
                };
                broken(group, &base, &read, told.refusal);
            }
        }
        broken(group, &base, &base, 13);
    }
}

fn is_same_clip(first: Fault, second: Fault) -> bool {
    matches!((first, second), (Fault::Clip(one, _), Fault::Clip(other, _)) if one == other)
}

fn broken(group: &mut Group, base: &Read, read: &Read, refusal: u64) {
    let mut tight = session(group, base, room_for(base, 2) - 1);
    tight.expect(group, read, refusal);
    tight.expect_finish(group, 9);
    tight.state.reads = 1;
    tight.expect(group, read, 9);
    finish(group, tight.state);
}

/// Refused reads before, between and behind the accepted ones leave no trace in the file.
pub fn going_on(group: &mut Group) {
    for base in bases() {
        let letters = vec![b'T'; base.flows.len()];
        for reads in 0..=4 {
            let room = room_for(&base, reads as usize);
            let mut session = Session::begin(group, reads, [&letters, b"TCAG"], room);
            for number in 0..=reads {
                for certain in certain_faults(&base) {
                    let mut read = base.clone();
                    certain.fault.apply(&mut read);
                    let refusal = if number < reads { certain.refusal } else { 9 };
                    session.expect(group, &read, refusal);
                    session.expect_finish(group, if number < reads { 9 } else { 0 });
                }
                session.expect(group, &base, if number < reads { 0 } else { 9 });
            }
            session.expect_finish(group, 0);
        }
    }
}
