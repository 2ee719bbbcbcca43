//! Whole files with bytes behind their end, drawn and checked.

use crate::drawing::{check_all, Input, Paper, Wish, PLAIN};
use crate::{abif, gtc, sff};
use compare::groups::tails::LENGTHS;
use compare::report::Group;

/// As long as many files together, so that the file's own share is narrow.
const MANY: usize = 2_000_000;

pub fn tails(group: &mut Group) {
    let inputs = followed();
    check_all(group, &inputs, PLAIN);
    check_all(group, &inputs, Wish::pages(Paper::A4));
}

/// A run of each format, with more and more bytes behind it.
pub fn followed() -> Vec<Input> {
    let mut inputs = Vec::new();
    for runs in [abif::files::runs(), sff::files::runs(), gtc::files::files()] {
        for length in LENGTHS.into_iter().chain([MANY]) {
            let bytes = [&runs[0][..], &vec![b'x'; length]].concat();
            inputs.push(Input::new(format!("{length} bytes behind the end"), bytes));
        }
    }
    inputs
}
