//! Channels whose ends lie at and around the ends of rows, and channels that lie far apart.

use crate::abif::files::{channels, levelled, run};
use crate::apart::check_apart;
use crate::drawing::{check_all, check_all_with, Input, Wish, PLAIN};
use compare::abif::generate::Order;
use compare::report::Group;

const LENGTHS: [usize; 12] = [0, 1, 2, 3, 499, 500, 501, 502, 1000, 1001, 1002, 1501];

const LEVELS: [[i16; 4]; 6] = [
    [-900, 0, 500, 900],
    [-500, -400, -300, -200],
    [30_000, 10, 0, -10],
    [i16::MIN, i16::MAX, -90, 0],
    [0, 0, 0, -45],
    [20, -5000, 20, 20],
];

pub fn rows(group: &mut Group) {
    let mut inputs = Vec::new();
    for length in LENGTHS {
        let name = format!("channels of {length} points");
        inputs.push(Input::new(name, channels(length)));
        for other in LENGTHS {
            let lengths = [length, other, 1, 540];
            let name = format!("channels of {lengths:?} points");
            inputs.push(Input::new(name, run(lengths, Order::DirectoryFirst)));
        }
    }
    for levels in LEVELS {
        let name = format!("channels at {levels:?}");
        inputs.push(Input::new(name, levelled(levels)));
    }
    check_all_with(group, &inputs, PLAIN, check_apart);
    check_all(group, &inputs[..20], Wish::raw());
}
