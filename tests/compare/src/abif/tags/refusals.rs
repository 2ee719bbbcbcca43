//! Judging's refusals, unknown profiles and rooms, in the order of the checks.

use super::expected::{all_missing, expect_in_room, expect_refusal, in_tag_order};
use super::files::{all_items, required_items, Shapes};
use super::profiles;
use crate::abif::generate::{plain_file, Order};
use crate::abif::Abif;
use crate::damage::changed;
use crate::format::{Damage, Format};
use crate::report::Group;

const UNKNOWN_PROFILE: u64 = 10;
/// Room for nothing, for no whole finding, for some and for all.
const ROOMS: [usize; 4] = [0, 2, 6, 3500];
const ROOM_LEFT: usize = 7;

/// Refused by 10 in every room.
pub fn unknown_profiles(group: &mut Group) {
    let mut shapes = Shapes::new(79);
    for (_, rows) in profiles::all() {
        for items in [Vec::new(), required_items(rows), all_items(rows)] {
            for file in shapes.files(&items) {
                refused(group, &file, &profiles::UNKNOWN, UNKNOWN_PROFILE);
            }
        }
    }
}

fn refused(group: &mut Group, file: &[u8], numbers: &[u64], refusal: u64) {
    group.input();
    for &profile in numbers {
        for room in ROOMS {
            expect_refusal(group, file, (profile, room), refusal);
        }
    }
}

/// What judging refuses is refused by judging's number in every profile, known or not.
pub fn judging_first(group: &mut Group) {
    let known = profiles::all().map(|(profile, _)| profile);
    let profiles: Vec<u64> = known.chain(profiles::UNKNOWN).collect();
    for base in Abif::bases() {
        for change in Abif::all_changes(&base) {
            let file = changed::<Abif>(&base, &[change]).bytes();
            let refusal = Abif::reader_verdict(&file).refusal;
            if refusal != 0 {
                refused(group, &file, &profiles, refusal);
            }
        }
    }
}

/// A file of no tags lacks all that is required: 13 in every room that is too small for that, and
/// in a larger one nothing behind the findings is changed.
pub fn rooms(group: &mut Group) {
    let file = plain_file(&[], Order::DirectoryFirst).bytes();
    for (profile, rows) in profiles::all() {
        group.input();
        let due = in_tag_order(all_missing(rows));
        for room in 0..=3 * due.len() + ROOM_LEFT {
            expect_in_room(group, &file, (profile, room), &due);
        }
    }
}
