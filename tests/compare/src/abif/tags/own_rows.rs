//! The tables themselves, and files made from a profile's own rows.

use super::check::Finding;
use super::expected::{all_missing, compare, expect, in_tag_order};
use super::files::{all_items, content, required_items, Items, Shapes};
use super::profiles;
use super::row::Row;
use crate::abif::reader::Tag;
use crate::report::Group;

const MOST_ENTRIES: usize = 999;
const DYES_OF_TABLE_5: [&[u8; 4]; 2] = [b"DyeN", b"DyeW"];

/// No row has a tag of another row of its table; the dyes' rows of Table 5 are those of Table 2.
pub fn tables(group: &mut Group) {
    for (profile, rows) in profiles::all() {
        group.input();
        for (index, row) in rows.iter().enumerate() {
            let twice = rows[..index]
                .iter()
                .find(|other| other.has_tag(row.first_tag()) || row.has_tag(other.first_tag()));
            group.check(twice.is_none(), &[], || {
                format!("profile {profile}: {row:?} has a tag of {twice:?}")
            });
        }
    }
    let [garbled, printed] = [5, 2].map(dye_rows);
    group.check(garbled == printed, &[], || {
        format!("Table 5 {garbled:?}, Table 2 {printed:?}")
    });
}

fn dye_rows(profile: u64) -> Vec<&'static Row> {
    let rows = profiles::rows_of(profile).unwrap_or_default().iter();
    rows.filter(|row| DYES_OF_TABLE_5.contains(&row.name))
        .collect()
}

/// Nothing is found of them in their own profile; in the other profiles both sides are compared.
pub fn own_rows(group: &mut Group) {
    let mut shapes = Shapes::new(71);
    for (own, rows) in profiles::all() {
        for items in [required_items(rows), all_items(rows)] {
            for file in shapes.files(&items) {
                expect(group, &file, own, &[]);
                for (other, _) in profiles::all() {
                    compare(group, &file, other);
                }
            }
        }
    }
}

/// Up to 999 tags: all rows of the profile and others, or others alone.
pub fn long_directories(group: &mut Group) {
    let mut shapes = Shapes::new(72);
    for (profile, rows) in profiles::all() {
        for mut items in [Items::new(), all_items(rows)] {
            let others: Vec<Tag> = other_tags().take(MOST_ENTRIES - items.len()).collect();
            let mut due = match items.as_slice() {
                [] => all_missing(rows),
                _ => Vec::new(),
            };
            due.extend(others.iter().map(|&tag| (tag, Finding::NotInProfile)));
            items.extend(others.into_iter().map(|tag| (tag, content(4, 1))));
            let due = in_tag_order(due);
            for file in shapes.files(&items) {
                expect(group, &file, profile, &due);
            }
        }
    }
}

// Names on both sides of those in the tables and among them, four numbers to a name.
fn other_tags() -> impl Iterator<Item = Tag> {
    let names = (0..=u8::MAX).map(|letter| [letter, b'a', letter, b'0']);
    names.flat_map(|name| [-3, 0, 1, 300].map(|number| Tag::new(&name, number)))
}
