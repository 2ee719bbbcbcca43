//! Directories of about the most entries that there may be, with a fault.

use super::Abif;
use crate::format::Files;
use crate::groups::damaged::compare_changed;
use crate::random::Random;
use crate::report::Group;

/// The counts 999 and 1000 are only judged to the end where the directory is that long.
pub fn counts(group: &mut Group) {
    let full = Abif::long_file(&mut Random::new(21), 999);
    for count in [998, 999, 1000, 1001] {
        let mut draft = full.clone();
        draft.header.count = count;
        draft.header.data_size = 28 * 1001;
        draft.body.resize(draft.body.len() + 56, 0);
        compare_changed::<Abif>(group, &draft);
    }
    for (index, other) in [(998, 0), (998, 997), (500, 499), (1, 0)] {
        let mut draft = full.clone();
        draft.entries[index].tag = draft.entries[other].tag;
        compare_changed::<Abif>(group, &draft);
    }
}
