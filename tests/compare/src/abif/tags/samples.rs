//! The published samples in every profile, with what is found of them, and all stored samples.

use super::check::Finding;
use super::expected::{all_missing, compare, expect, expect_refusal, in_tag_order};
use super::profiles;
use crate::abif::reader::Tag;
use crate::abif::samples::{month_thirteen, one_inline_item, one_item_at_an_offset};
use crate::format::CUT_SHORT;
use crate::report::Group;
use crate::samples;

const ABCD_1: Tag = Tag::new(b"ABCD", 1);
const ROOM: usize = 300;

/// The whole ones have the tag ABCD 1 alone, which is in no profile, and the cut ones lack a byte.
pub fn published_and_stored(group: &mut Group) {
    let whole = [one_inline_item(), one_item_at_an_offset(), month_thirteen()];
    let cut = [
        &[],
        &one_inline_item()[..155],
        &one_item_at_an_offset()[..161],
    ];
    for (profile, rows) in profiles::all() {
        let mut due = all_missing(rows);
        due.push((ABCD_1, Finding::NotInProfile));
        let due = in_tag_order(due);
        for file in &whole {
            expect(group, file, profile, &due);
        }
        for file in cut {
            group.input();
            expect_refusal(group, file, (profile, ROOM), CUT_SHORT);
        }
        for (_, file) in samples::all() {
            compare(group, &file, profile);
        }
    }
}
