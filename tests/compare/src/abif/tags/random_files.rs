//! Random files of tags from the tables, of any types and counts.

use super::check::Finding;
use super::expected::compare;
use super::files::{content, row_content, some_tags, Items, Shapes};
use super::profiles;
use super::row::Row;
use super::tables::TABLES;
use crate::abif::generate::all_codes;
use crate::random::Random;
use crate::report::Group;

const FILES: usize = 4000;
const MOST_OTHER_ROWS: usize = 20;
const FINDINGS: [Finding; 3] = [Finding::Missing, Finding::OtherType, Finding::NotInProfile];
const LEAST_OF_EACH: usize = 10_000;

/// Most rows of a profile, some rows of others, and a few tags beside them; asked for in the profile
/// and in any other. The line tells how often each finding was made.
pub fn files(group: &mut Group) {
    let mut random = Random::new(81);
    let mut shapes = Shapes::new(82);
    let mut found = Vec::new();
    for (profile, rows) in profiles::all().cycle().take(FILES) {
        let file = shapes.file(&random_items(&mut random, rows));
        found.extend(compare(group, &file, profile));
        let other = random.between(1, TABLES.len()) as u64;
        found.extend(compare(group, &file, other));
    }
    let counts = FINDINGS.map(|finding| found.iter().filter(|other| **other == finding).count());
    for (finding, count) in FINDINGS.iter().zip(counts) {
        group.check(count >= LEAST_OF_EACH, &[], || {
            format!("{finding:?} was found only {count} times")
        });
    }
    let [missing, other_type, not_in_profile] = counts;
    group.remark(format!(
        "{missing} missing, {other_type} of another type, {not_in_profile} not in the profile"
    ));
}

fn random_items(random: &mut Random, rows: &[Row]) -> Items {
    let present = random.pick(&[2, 10, 100]);
    let mut items = Items::new();
    for row in rows {
        if !random.one_in(present) {
            add(random, row, &mut items);
        }
    }
    for _ in 0..random.below(MOST_OTHER_ROWS) {
        let rows = random.pick(&TABLES);
        let row = random.pick(rows);
        add(random, &row, &mut items);
    }
    items
}

// An item for one of the row's tags, now and then of another type, count or tag.
fn add(random: &mut Random, row: &Row, items: &mut Items) {
    let mut tag = random.pick(&some_tags(row));
    let mut item = row_content(row.row_type);
    if random.one_in(10) {
        item = content(random.pick(&all_codes()), item.count);
    }
    if random.one_in(10) {
        item = content(item.type_code, random.below(6) as i32);
    }
    if random.one_in(20) {
        tag.number = random.pick(&[-1, 0, 2, 5, 1 << 16, i32::MAX, i32::MIN]);
    }
    if random.one_in(20) {
        tag.name ^= 1 << random.below(32);
    }
    if items.iter().all(|(other, _)| *other != tag) {
        items.push((tag, item));
    }
}
