//! Sessions made for one rule each: letters, names, counts, rooms, and the number of reads.

use super::faults::Fault;
use super::generate::sound_read;
use super::read::Read;
use super::session::Session;
use crate::random::Random;
use crate::report::Group;
use crate::sff::answers::State;
use crate::sff::samples;

const KEY: &[u8] = b"TCAG";
const LONGEST_NAME: usize = 65_528 - 16;

// A session for so many reads of this read's flows.
fn session_for(group: &mut Group, read: &Read, reads: u32, room: usize) -> Session {
    let letters = vec![b'T'; read.flows.len()];
    Session::begin(group, reads, [&letters, KEY], room)
}

fn header_length(flows: usize, key: usize) -> usize {
    (31 + flows + key).next_multiple_of(8)
}

/// Adds one read, refused so or accepted, then one that is sound, in just the room that is needed.
pub fn one_read(group: &mut Group, read: &Read, refusal: u64) {
    let flows = read.flows.len();
    let sound = Read::new(b"sound", flows, &[]);
    let size = if refusal == 0 { read.size() } else { 0 };
    let room = header_length(flows, KEY.len()) + size + sound.size();
    let reads = if refusal == 0 { 2 } else { 1 };
    let mut session = session_for(group, read, reads, room);
    session.expect(group, read, refusal);
    session.expect(group, &sound, 0);
    session.expect_finish(group, 0);
}

/// W7 and W8 from their letters and their read.
pub fn published(group: &mut Group) {
    let letters: [&[u8]; 2] = [b"TACG", b"TACG"];
    let mut read = Read::new(b"first", 4, &[1, 1, 1]);
    read.flows = vec![0, 1, 2, 3];
    read.clips = [2, 0, 0, 0];
    for (reads, file) in [(0, samples::no_reads()), (1, samples::one_read())] {
        let mut session = Session::begin(group, reads, letters, file.len());
        let begun = State {
            reads: reads.into(),
            flows: 4,
            at: 40,
            ..State::default()
        };
        group.check(session.state == begun, &file, || {
            format!("{:?}", session.state)
        });
        for _ in 0..reads {
            session.expect(group, &read, 0);
        }
        session.expect_finish(group, 0);
        let written = &session.outputs.bytes()[..file.len()];
        group.check(written == file, written, || "not the sample".to_string());
    }
}

/// Flow and key letters of every small number, and around the most that fit.
pub fn header_letters(group: &mut Group) {
    for flows in 0..=20 {
        for key in 0..=20 {
            letters(group, 7, flows, key);
        }
    }
    for sum in (65_485..=65_512).chain([65_535, 65_536, 65_544, 65_569, 131_072, 131_080]) {
        for few in [0, 4, 32_000] {
            letters(group, 1, sum - few, few);
            letters(group, 1, few, sum - few);
        }
    }
    for many in [65_535, 65_536, 65_540] {
        letters(group, 1, many, many);
    }
    for reads in [0, 1, 255, 256, 65_535, 65_536, 1 << 24, 1 << 31, u32::MAX] {
        letters(group, reads, 4, 4);
    }
}

fn letters(group: &mut Group, reads: u32, flows: usize, key: usize) {
    let letters = Random::new(72).bytes(flows + key);
    let (flow_letters, key_letters) = letters.split_at(flows);
    let length = header_length(flows, key);
    let fits = [flows, key, length].iter().all(|&number| number <= 65_535);
    for room in [0, length - 1, length, length + 9] {
        let refusal = match fits {
            false => 9,
            true if room < length => 13,
            true => 0,
        };
        let session = Session::begin(group, reads, [flow_letters, key_letters], room);
        let begun = State {
            refusal,
            ..State::default()
        };
        let right = match refusal {
            0 => session.state.at == length as u64 && session.state.reads == u64::from(reads),
            _ => session.state == begun,
        };
        group.check(right, &[], || {
            format!(
                "{flows} and {key} letters, room {room}: {:?}",
                session.state
            )
        });
        if refusal == 0 {
            session.expect_finish(group, if reads == 0 { 0 } else { 9 });
        }
    }
}

/// Names of every small length, and around the longest.
pub fn names(group: &mut Group) {
    let mut random = Random::new(73);
    let bounds = (65_500..=65_540).chain([131_064, 131_072, 131_077]);
    for length in (0..=40).chain(bounds) {
        for bases in [0, 1, 4] {
            let mut read = Read::new(&[], 4, &vec![1; bases]);
            read.name = random.bytes(length);
            one_read(group, &read, if length > LONGEST_NAME { 9 } else { 0 });
        }
    }
}

/// Flows, steps, letters and qualities, each one fewer, right, or one more.
pub fn counts(group: &mut Group) {
    for bases in [1, 3, 8] {
        let base = Read::new(b"counted", 20, &vec![2; bases]);
        for choice in 0..81_usize {
            let digit = |place: u32| choice / 3_usize.pow(place) % 3;
            let mut read = base.clone();
            Fault::Flows(19 + digit(0)).apply(&mut read);
            Fault::Steps(bases + digit(1) - 1).apply(&mut read);
            Fault::Letters(bases + digit(2) - 1).apply(&mut read);
            Fault::Qualities(bases + digit(3) - 1).apply(&mut read);
            let even = digit(0) == 1 && digit(1) == digit(2) && digit(2) == digit(3);
            let mut session = session_for(group, &base, 1, 200);
            session.expect(group, &read, if even { 0 } else { 9 });
            session.expect_finish(group, if even { 0 } else { 9 });
        }
    }
}

/// Every room for a header and three reads; what does not fit is refused, and the next may fit.
pub fn rooms(group: &mut Group) {
    let mut random = Random::new(74);
    for _ in 0..12 {
        let flows = random.between(0, 9);
        let reads: Vec<Read> = (0..3).map(|_| sound_read(&mut random, flows)).collect();
        let header = header_length(flows, KEY.len());
        let sizes: usize = reads.iter().map(Read::size).sum();
        for room in header..=header + sizes + 3 {
            let mut session = session_for(group, &reads[0], 3, room);
            let mut at = header;
            for read in &reads {
                let fits = at + read.size() <= room;
                session.expect(group, read, if fits { 0 } else { 13 });
                at += if fits { read.size() } else { 0 };
            }
            let all = at == header + sizes;
            session.expect_finish(group, if all { 0 } else { 9 });
        }
    }
}

/// Finishing at every count of reads, before the stated number, at it, and after one too many.
pub fn read_counts(group: &mut Group) {
    let read = Read::new(b"counted", 4, &[1, 1]);
    for reads in 0..=9 {
        let mut session = session_for(group, &read, reads, 1000);
        for written in 0..reads + 3 {
            let is_past = written >= reads;
            session.expect_finish(group, if is_past { 0 } else { 9 });
            session.expect(group, &read, if is_past { 9 } else { 0 });
        }
        session.expect_finish(group, 0);
    }
    for reads in [65_536, 1 << 31, u32::MAX] {
        let mut session = session_for(group, &read, reads, 1000);
        session.expect_finish(group, 9);
        session.expect(group, &read, 0);
        session.expect_finish(group, 9);
    }
}
