//! Every beginning of files of a profile's own rows, and the same files with bytes behind them.

use super::expected::{expect, expect_refusal};
use super::files::{all_items, Shapes};
use super::profiles;
use crate::format::CUT_SHORT;
use crate::groups::tails;
use crate::report::Group;

/// A finding that a cut file might be given.
const ROOM: usize = 3;

/// A cut is refused by 1 and changes nothing; bytes behind the end change nothing either.
pub fn every_cut(group: &mut Group) {
    let mut shapes = Shapes::new(80);
    for (profile, rows) in profiles::all() {
        let file = shapes.file(&all_items(rows));
        for length in 0..file.len() {
            group.input();
            let cut = file[..length].to_vec().into_boxed_slice();
            expect_refusal(group, &cut, (profile, ROOM), CUT_SHORT);
        }
        for length in tails::LENGTHS {
            let behind = vec![0xFF; length];
            expect(group, &[&file[..], &behind].concat(), profile, &[]);
        }
    }
}
