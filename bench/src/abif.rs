//! ABIF: judging, listing, whole numbers read at once, tags checked against a profile, and writing.

use crate::timing::compare_times;
use compare::abif::generate::{plain_file, random_content, Content, Order};
use compare::abif::library;
use compare::abif::reader::{self, Entry, Tag};
use compare::abif::tags::check::{Finding, FINDING_NUMBERS};
use compare::abif::tags::files::all_items;
use compare::abif::tags::profiles::rows_of;
use compare::abif::tags::row::Row;
use compare::abif::writer;
use compare::abif::writing::generate::sound_data;
use compare::abif::writing::list::List;
use compare::answers::{self, Untouched};
use compare::random::Random;
use compare::refusal::Refusal;
use std::hint::black_box;

const ROUNDS: usize = 1001;
const SHORTS: usize = 10_000;
const TRACE: Tag = Tag::new(b"DATA", 9);
/// The profile with the most rows.
const PROFILE: u64 = 8;
const WRITING_ROUNDS: usize = 101;
const ITEMS_WRITTEN: usize = 500;
const BYTES_WRITTEN: usize = 20_000;
/// Seven types of any contents, then dates, times and texts.
pub const MIXED_TYPES: [i16; 10] = [1, 4, 4, 5, 8, 12, 1024, 10, 11, 19];

pub fn judging(tags: usize) {
    let file = file_of(tags);
    let expected = answers::Verdict::from(reader::judge(&file));
    assert_eq!(expected.refusal, 0);
    assert_eq!(library::judge(&file), expected);
    compare_times(
        &format!("judging a file of {tags} tags"),
        ROUNDS,
        || {
            black_box(library::judge(black_box(&file)));
        },
        || {
            let _ = black_box(reader::judge(black_box(&file)));
        },
    );
}

// Each side copies into a list of its own, which is not cleared between the calls.
pub fn listing(tags: usize) {
    let file = file_of(tags);
    let mut ours: Vec<Entry> = (0..tags).map(Entry::untouched).collect();
    let mut plain = ours.clone();
    let answer = reader::list(&file, &mut plain);
    assert_eq!(answer, Ok(tags));
    let listed = library::list(&file, &mut ours);
    assert_eq!(listed, answers::Listed::from(answer));
    assert_eq!(ours, plain);
    compare_times(
        &format!("listing a directory of {tags} entries"),
        ROUNDS,
        || {
            let out = black_box(&mut ours[..]);
            black_box(library::list(black_box(&file), out));
        },
        || {
            let out = black_box(&mut plain[..]);
            let _ = black_box(reader::list(black_box(&file), out));
        },
    );
}

// Each side writes into a buffer of its own, which is not cleared between the calls.
pub fn whole_numbers() {
    let file = file_of(130);
    let mut ours = vec![0; SHORTS];
    let mut plain = vec![0; SHORTS];
    let answer = reader::whole_numbers(&file, TRACE, 1, &mut plain);
    assert_eq!(answer, Ok(SHORTS));
    let listed = library::whole_numbers(&file, TRACE, 1, &mut ours);
    assert_eq!(listed, answers::Listed::from(answer));
    assert_eq!(ours, plain);
    compare_times(
        &format!("reading {SHORTS} shorts"),
        ROUNDS,
        || {
            let out = black_box(&mut ours[..]);
            black_box(library::whole_numbers(black_box(&file), TRACE, 1, out));
        },
        || {
            let out = black_box(&mut plain[..]);
            let _ = black_box(reader::whole_numbers(black_box(&file), TRACE, 1, out));
        },
    );
}

/// In a file of a profile's own rows, and in files of so many tags, these among them, in tag order and in
/// any order.
pub fn checking_tags(tags: usize) {
    let rows = rows_in_tag_order();
    let mut items = all_items(&rows);
    items.sort_by_key(|(tag, _)| (tag.name, tag.number));
    check_file(&format!("of {} tags of a profile", items.len()), &items);
    let mut random = Random::new(2);
    let others = (0..tags - items.len()).map(tag_number);
    items.extend(others.map(|tag| (tag, random_content(&mut random))));
    items.sort_by_key(|(tag, _)| (tag.name, tag.number));
    check_file(&format!("of {tags} tags in tag order"), &items);
    random.shuffle(&mut items);
    check_file(&format!("of {tags} tags in any order"), &items);
}

// Each side writes into a list of its own, which is not cleared between the calls.
fn check_file(name: &str, items: &[(Tag, Content)]) {
    let file = plain_file(items, Order::DirectoryLast).bytes();
    let rows = rows_in_tag_order();
    let mut ours = vec![0; FINDING_NUMBERS * (items.len() + rows.len())];
    let mut plain = ours.clone();
    let answer = check_plainly(&file, &rows, &mut plain);
    let listed = library::check_tags(&file, PROFILE, &mut ours);
    assert_eq!(listed, answers::Listed::from(answer));
    assert_eq!(listed.refusal, 0);
    assert_eq!(ours, plain);
    compare_times(
        &format!("checking the tags of a file {name}"),
        ROUNDS,
        || {
            let out = black_box(&mut ours[..]);
            black_box(library::check_tags(black_box(&file), PROFILE, out));
        },
        || {
            let out = black_box(&mut plain[..]);
            let _ = black_box(check_plainly(black_box(&file), black_box(&rows), out));
        },
    );
}

fn rows_in_tag_order() -> Vec<Row> {
    let mut rows = rows_of(PROFILE).expect("there is such a profile").to_vec();
    rows.sort_by_key(|row| key(row.first_tag()));
    rows
}

fn key(tag: Tag) -> (u32, i32) {
    (tag.name, tag.number)
}

// Judges, sorts the entries, and goes through them and the rows, which are in tag order, side by side.
fn check_plainly(bytes: &[u8], rows: &[Row], out: &mut [i64]) -> Result<usize, Refusal> {
    reader::judge(bytes).map_err(|refused| refused.refusal)?;
    let mut entries: Vec<Entry> = reader::open(bytes)?.entries(bytes).collect();
    entries.sort_unstable_by_key(|entry| key(entry.tag));
    let findings = findings(&entries, rows);
    if out.len() < FINDING_NUMBERS * findings.len() {
        return Err(Refusal::OutputTooSmall);
    }
    let slots = out.chunks_exact_mut(FINDING_NUMBERS);
    for (slot, &(tag, finding)) in slots.zip(&findings) {
        slot.copy_from_slice(&[tag.name.into(), tag.number.into(), finding as i64]);
    }
    Ok(findings.len())
}

fn findings(entries: &[Entry], rows: &[Row]) -> Vec<(Tag, Finding)> {
    let mut findings = Vec::with_capacity(entries.len() + rows.len());
    let mut behind = rows;
    let mut before = None;
    for entry in entries {
        while let Some((row, rest)) = behind.split_first() {
            if key(row.first_tag()) > key(entry.tag) {
                break;
            }
            if key(row.first_tag()) < key(entry.tag) && !row.is_optional {
                findings.push((row.first_tag(), Finding::Missing));
            }
            (before, behind) = (Some(row), rest);
        }
        match before.filter(|row| row.has_tag(entry.tag)) {
            None => findings.push((entry.tag, Finding::NotInProfile)),
            Some(row) if !row.row_type.admits(entry) => {
                findings.push((entry.tag, Finding::OtherType));
            }
            Some(_) => {}
        }
    }
    let missing = behind.iter().filter_map(Row::required_tag);
    findings.extend(missing.map(|tag| (tag, Finding::Missing)));
    findings
}

/// Items of these types in turn; each side writes into a buffer of its own, which is not cleared.
pub fn writing(name: &str, types: &[i16]) {
    let mut random = Random::new(3);
    let contents = (0..ITEMS_WRITTEN).map(|index| {
        let code = types[index % types.len()];
        let size = writer::element_size(code).expect("the type may be written");
        Content::listed(code, sound_data(&mut random, code, BYTES_WRITTEN / size))
    });
    let list = List::numbered(contents.collect());
    let lent = list.lent();
    let mut ours = vec![0; list.file_length()];
    let mut plain = vec![0; list.file_length()];
    let answer = writer::write(&lent, &mut plain);
    assert_eq!(answer, Ok(plain.len() as u64));
    let written = library::write(&lent, &mut ours);
    assert_eq!(written, answers::Finished::from(answer));
    assert!(ours == plain);
    compare_times(
        &format!("writing {ITEMS_WRITTEN} items of {BYTES_WRITTEN} bytes, {name}"),
        WRITING_ROUNDS,
        || {
            let out = black_box(&mut ours[..]);
            black_box(library::write(black_box(&lent), out));
        },
        || {
            let out = black_box(&mut plain[..]);
            let _ = black_box(writer::write(black_box(&lent), out));
        },
    );
}

// A whole file with this many tags, four to a name, and the shorts under a tag in its middle.
fn file_of(tags: usize) -> Vec<u8> {
    let mut random = Random::new(1);
    let mut items: Vec<(Tag, Content)> = (0..tags)
        .map(|index| (tag_number(index), random_content(&mut random)))
        .collect();
    let shorts = Content::listed(4, random.bytes(2 * SHORTS));
    items[tags / 2] = (TRACE, shorts);
    plain_file(&items, Order::DirectoryLast).bytes()
}

fn tag_number(index: usize) -> Tag {
    let name = index / 4;
    let letters = [
        b'T',
        b'A' + (name / 26) as u8,
        b'A' + (name % 26) as u8,
        b'n',
    ];
    Tag::new(&letters, index as i32 % 4 + 1)
}
