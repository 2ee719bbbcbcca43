//! Random lists of reads, accepted and refused.

use super::faults::all_faults;
use super::generate::sound_read;
use super::read::Read;
use super::session::Session;
use crate::random::Random;
use crate::report::Group;
use crate::tally::Tally;

const SESSIONS: usize = 60_000;
const LEAST_OF_EACH: u64 = 2000;

/// Each list is counted under its first refusal, or as accepted if it has none.
pub fn sessions(group: &mut Group) {
    let mut random = Random::new(79);
    let mut tally = Tally::default();
    for _ in 0..SESSIONS {
        tally.add(session(group, &mut random));
    }
    tally.report(group, &[0, 9, 11, 13], LEAST_OF_EACH);
}

fn session(group: &mut Group, random: &mut Random) -> u64 {
    let flows = match random.below(20) {
        0 => 0,
        1 => random.between(100, 400),
        _ => random.between(1, 12),
    };
    let flow_letters = random.bytes(flows);
    let key_length = random.pick(&[0, 1, 3, 4, 4, 4, 9]);
    let key = random.bytes(key_length);
    let stated = random.below(6);
    let reads: Vec<Read> = (0..stated).map(|_| sound_read(random, flows)).collect();
    let sizes: usize = reads.iter().map(Read::size).sum();
    let exact = (31 + flows + key.len()).next_multiple_of(8) + sizes;
    let room = match random.below(8) {
        0 => exact - 1,
        1 => random.below(exact),
        2..=4 => exact,
        _ => exact + random.below(100),
    };
    let mut session = Session::begin(group, stated as u32, [&flow_letters, &key], room);
    let mut first = session.state.refusal;
    let mut note = |refusal: u64| first = if first == 0 { refusal } else { first };
    for read in &reads {
        note(attempts(group, random, &mut session, read));
    }
    if random.one_in(8) {
        let more = sound_read(random, flows);
        note(session.add(group, &more));
    }
    note(session.finish(group));
    first
}

// The read, now and then behind a changed one, or left out; returns the first refusal.
fn attempts(group: &mut Group, random: &mut Random, session: &mut Session, read: &Read) -> u64 {
    let mut first = 0;
    if random.one_in(5) {
        let mut changed = read.clone();
        for _ in 0..random.between(1, 2) {
            let fault = random.pick(&all_faults(&changed));
            fault.apply(&mut changed);
        }
        first = session.add(group, &changed);
    }
    if random.one_in(20) {
        return first;
    }
    let refusal = session.add(group, read);
    if first == 0 {
        refusal
    } else {
        first
    }
}
