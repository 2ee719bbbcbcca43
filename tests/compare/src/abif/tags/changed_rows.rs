//! Files of all rows of a profile with one item removed, of another type or of another count.

use super::check::Finding;
use super::expected::expect;
use super::files::{all_items, content, row_content, some_tags, Items, Shapes};
use super::profiles;
use super::row::{Row, RowType};
use crate::abif::generate::{all_codes, Content};
use crate::abif::reader::Tag;
use crate::report::Group;

const COUNTS: [i32; 6] = [0, 1, 2, 3, 4, 5];
const USER_CODES: [i16; 4] = [1024, 1025, 20_000, i16::MAX];

/// A tag of a row, in a file of all rows of a profile.
struct Place<'a> {
    profile: u64,
    row: &'a Row,
    tag: Tag,
    items: &'a Items,
}

impl Place<'_> {
    // The file with this item here, or without one, is due to be reported so.
    fn expect(&self, group: &mut Group, shapes: &mut Shapes, changed: Change) {
        let mut items = self.items.clone();
        items.retain(|(tag, _)| *tag != self.tag);
        items.extend(changed.content.map(|content| (self.tag, content)));
        let due = changed.due.map(|finding| (self.tag, finding));
        expect(group, &shapes.file(&items), self.profile, due.as_slice());
    }
}

/// What stands in the place instead, and what is found of it.
struct Change {
    content: Option<Content>,
    due: Option<Finding>,
}

fn at_every_place(seed: u64, mut at: impl FnMut(&Place, &mut Shapes)) {
    let mut shapes = Shapes::new(seed);
    for (profile, rows) in profiles::all() {
        let items = &all_items(rows);
        for row in rows {
            for tag in some_tags(row) {
                let place = Place {
                    profile,
                    row,
                    tag,
                    items,
                };
                at(&place, &mut shapes);
            }
        }
    }
}

pub fn removed(group: &mut Group) {
    at_every_place(73, |place, shapes| {
        let due = (!place.row.is_optional).then_some(Finding::Missing);
        let content = None;
        place.expect(group, shapes, Change { content, due });
    });
}

/// Every type, and in a row of user type every user type, which is right there.
pub fn retyped(group: &mut Group) {
    at_every_place(74, |place, shapes| {
        let right = match place.row.row_type {
            RowType::User => USER_CODES.to_vec(),
            row_type => row_type.code().into_iter().collect(),
        };
        let count = row_content(place.row.row_type).count;
        for code in all_codes() {
            let due = (!right.contains(&code)).then_some(Finding::OtherType);
            let content = Some(content(code, count));
            place.expect(group, shapes, Change { content, due });
        }
    });
}

/// Every small count, and some large ones.
pub fn recounted(group: &mut Group) {
    at_every_place(75, |place, shapes| {
        let row_type = place.row.row_type;
        let code = row_content(row_type).type_code;
        for count in COUNTS.into_iter().chain(large_counts(row_type)) {
            let is_right = row_type.count().is_none_or(|right| right == count);
            let due = (!is_right).then_some(Finding::OtherType);
            let content = Some(content(code, count));
            place.expect(group, shapes, Change { content, due });
        }
    });
}

// Those that have the right one in their low bits; of raw data, which do not bear them out, any.
fn large_counts(row_type: RowType) -> Vec<i32> {
    match (row_type, row_type.count()) {
        (_, Some(right)) => vec![right + (1 << 8), right + (1 << 16)],
        (RowType::User, None) => vec![70_000, i32::MAX],
        (_, None) => vec![300],
    }
}
