//! States made by hand, which are judged by the same rules.

use super::faults::all_faults;
use super::generate::sound_read;
use super::read::Read;
use super::session::{add, finish, Outputs};
use crate::random::Random;
use crate::report::Group;
use crate::sff::answers::State;
use crate::tally::Tally;

const ROOM: usize = 200;
const RANDOM_STATES: usize = 12_000;
const LEAST_OF_EACH: u64 = 500;
const REFUSALS: [u64; 4] = [0, 9, 13, u64::MAX];
const NUMBERS: [u64; 8] = [
    0,
    1,
    2,
    0xFFFF_FFFF,
    1 << 32,
    1 << 63,
    u64::MAX - 1,
    u64::MAX,
];
const FLOWS: [u64; 8] = [0, 3, 4, 5, 65_540, 0x1_0000_0004, 1 << 63, u64::MAX];

fn compare(group: &mut Group, state: State, read: &Read, room: usize) -> State {
    group.input();
    let mut outputs = Outputs::new(room);
    let after = add(group, state, read, &mut outputs);
    finish(group, state);
    finish(group, after);
    after
}

/// Every choice of numbers at their bounds, for a read of four flows and one of none.
pub fn extreme(group: &mut Group) {
    let reads = [Read::new(b"read", 4, &[1, 1, 1]), Read::new(b"", 0, &[])];
    let room = ROOM as u64;
    let places = [
        0,
        3,
        8,
        room - 48,
        room - 47,
        room,
        room + 1,
        1 << 32,
        1 << 63,
        u64::MAX,
    ];
    for choice in 0..4 * 8 * 8 * 8 * 10_usize {
        let state = State {
            refusal: REFUSALS[choice % 4],
            reads: NUMBERS[choice / 4 % 8],
            written: NUMBERS[choice / 32 % 8],
            flows: FLOWS[choice / 256 % 8],
            at: places[choice / 2048],
        };
        for read in &reads {
            compare(group, state, read, ROOM);
        }
    }
    many_flows(group);
}

// More flows than a header could state.
fn many_flows(group: &mut Group) {
    for flows in [65_535, 65_536, 70_000_usize] {
        let read = Read::new(b"flows", flows, &[1, 255, 0]);
        for stated in [flows - 1, flows, flows + 1, flows + 65_536] {
            let state = State {
                reads: 1,
                flows: stated as u64,
                at: 5,
                ..State::default()
            };
            compare(group, state, &read, read.size() + 8);
        }
    }
}

/// Every place around the last one that the read fits at, and around the largest numbers.
pub fn near_the_end(group: &mut Group) {
    let mut random = Random::new(77);
    for _ in 0..40 {
        let flows = random.below(8);
        let read = sound_read(&mut random, flows);
        let size = read.size() as u64;
        let room = size + 60;
        let mut places: Vec<u64> = (0..room + 10).collect();
        places.extend((0..size + 20).map(|less| u64::MAX - less));
        for bound in [1 << 31, 1 << 32, 1 << 63] {
            places.extend([bound - size, bound - 1, bound, bound + 1, bound + 60]);
        }
        for at in places {
            let state = State {
                reads: 1,
                flows: flows as u64,
                at,
                ..State::default()
            };
            let fits = u128::from(at) + u128::from(size) <= u128::from(room);
            let after = compare(group, state, &read, room as usize);
            let refusal = if fits { 0 } else { 13 };
            group.check(after.refusal == refusal, &[], || {
                format!("{state:?}, read of {size} in {room}: {after:?}")
            });
        }
    }
}

/// Random states with random reads, sound and not.
pub fn random(group: &mut Group) {
    let mut random = Random::new(78);
    let mut tally = Tally::default();
    for _ in 0..RANDOM_STATES {
        let flows = random.below(10);
        let mut read = sound_read(&mut random, flows);
        if random.one_in(3) {
            let fault = random.pick(&all_faults(&read));
            fault.apply(&mut read);
        }
        let room = random.below(2 * read.size().min(2000) + 40);
        let state = random_state(&mut random, flows as u64, room as u64);
        tally.add(compare(group, state, &read, room).refusal);
    }
    tally.report(group, &[0, 9, 11, 13], LEAST_OF_EACH);
}

// Mostly a state that some session could be in.
fn random_state(random: &mut Random, flows: u64, room: u64) -> State {
    let any = random.next_u64();
    let written = random.pick(&[0, 0, 1, 2, 70_000, u64::MAX - 1, any]);
    let past = [0, 0, u64::MAX, any];
    State {
        refusal: random.pick(&past),
        reads: match random.below(12) {
            0 => written,
            1 => written.saturating_sub(1),
            2 => random.next_u64(),
            _ => written.saturating_add(random.between(1, 9) as u64),
        },
        written,
        flows: if random.one_in(12) {
            random.pick(&past)
        } else {
            flows
        },
        at: match random.below(12) {
            0 => random.pick(&past),
            1 => room,
            _ => random.below(room as usize / 2 + 1) as u64,
        },
    }
}
