//! Files of all rows of a profile with tags before, between and behind them.

use super::check::Finding;
use super::expected::{expect, in_tag_order};
use super::files::{all_items, content, row_content, Items, Shapes};
use super::profiles;
use super::row::Row;
use crate::abif::reader::Tag;
use crate::arguments::distinct;
use crate::report::Group;

const NUMBERS: [i32; 8] = [-1, 0, 1, 2, 3, 106, i32::MAX, i32::MIN];
const MOST_ENTRIES: usize = 999;

/// Names before and behind all rows, some of them with letters past 127.
const FAR_NAMES: [&[u8; 4]; 9] = [
    b"\0\0\0\0",
    b"\0\0\0\x01",
    b"ABCD",
    b"tdir",
    b"\x7F\xFF\xFF\xFF",
    b"\x80\0\0\0",
    b"\xC4ATA",
    b"DAT\xC1",
    b"\xFF\xFF\xFF\xFF",
];

/// Each tag alone.
pub fn one(group: &mut Group) {
    let mut shapes = Shapes::new(77);
    for (profile, rows) in profiles::all() {
        let items = all_items(rows);
        for tag in added_tags(rows, &items) {
            let (item, due) = added(rows, tag);
            let file = shapes.file(&[&items[..], &[item]].concat());
            expect(group, &file, profile, due.as_slice());
        }
    }
}

/// As many together as a directory holds beside the rows.
pub fn many(group: &mut Group) {
    let mut shapes = Shapes::new(78);
    for (profile, rows) in profiles::all() {
        let own = all_items(rows);
        for tags in added_tags(rows, &own).chunks(MOST_ENTRIES - own.len()) {
            let mut items = own.clone();
            let mut due = Vec::new();
            for &tag in tags {
                let (item, finding) = added(rows, tag);
                items.push(item);
                due.extend(finding);
            }
            let due = in_tag_order(due);
            for file in shapes.files(&items) {
                expect(group, &file, profile, &due);
            }
        }
    }
}

type Item = <Items as IntoIterator>::Item;

// The tag's item, of its row's type where it has a row, and what is found of it.
fn added(rows: &[Row], tag: Tag) -> (Item, Option<(Tag, Finding)>) {
    match rows.iter().find(|row| row.has_tag(tag)) {
        Some(row) => ((tag, row_content(row.row_type)), None),
        None => ((tag, content(4, 1)), Some((tag, Finding::NotInProfile))),
    }
}

// The names of the rows, their neighbours and the far ones, with every number; only tags that the
// file does not have.
fn added_tags(rows: &[Row], items: &Items) -> Vec<Tag> {
    let mut names: Vec<u32> = FAR_NAMES.map(|name| u32::from_be_bytes(*name)).to_vec();
    for row in rows {
        let name = row.first_tag().name;
        names.extend([name - 1, name, name + 1]);
    }
    let names = distinct(names).into_iter();
    let tags = names.flat_map(|name| NUMBERS.map(|number| Tag { name, number }));
    tags.filter(|tag| items.iter().all(|(own, _)| own != tag))
        .collect()
}
