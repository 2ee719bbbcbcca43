//! Random lists of items, accepted and refused.

use super::compare;
use super::faults::random_fault;
use super::generate::sound_list;
use super::list::List;
use crate::random::Random;
use crate::report::Group;
use crate::tally::Tally;

const LISTS: usize = 60_000;
const LEAST_OF_EACH: u64 = 500;

pub fn lists(group: &mut Group) {
    let mut random = Random::new(61);
    let mut tally = Tally::default();
    for _ in 0..LISTS {
        let list = random_list(&mut random);
        let room = random_room(&mut random, &list);
        tally.add(compare(group, &list, room));
    }
    tally.report(group, &[0, 5, 9, 10, 11, 13, 14], LEAST_OF_EACH);
}

fn random_list(random: &mut Random) -> List {
    let count = match random.below(50) {
        0 => random.between(990, 1030),
        1..=3 => 0,
        4..=40 => random.between(1, 5),
        41..=48 => random.between(1, 12),
        _ => random.between(13, 40),
    };
    let mut list = sound_list(random, count);
    for _ in 0..random.pick(&[0, 0, 0, 1, 1, 2, 3]) {
        if count > 0 && (count < 900 || random.one_in(4)) {
            random_fault(random, &list).apply(&mut list);
        }
    }
    list
}

// Enough, just enough, or too little for a list that is sound but for its largest lengths.
fn random_room(random: &mut Random, list: &List) -> usize {
    let apart = list
        .lengths
        .iter()
        .filter(|&&length| (5..=1 << 16).contains(&length));
    let exact = 128 + apart.sum::<u64>() as usize + 28 * list.count();
    match random.below(10) {
        0 => exact - 1,
        1 => random.below(exact),
        2..=5 => exact,
        _ => exact + random.below(40),
    }
}
