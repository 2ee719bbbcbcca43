//! The stored ABIF files.

use super::draft::Draft;
use super::fragments;
use super::generate::{all_codes, element_size, listed_data, plain_file, Content, Order};
use super::reader::{Tag, Type};
use super::run;
use crate::random::Random;
use crate::samples::{cut, Sample};

const ABCD: Tag = Tag::new(b"ABCD", 1);

/// The file that the published samples call W2: two shorts inside their entry.
pub fn one_inline_item() -> Vec<u8> {
    let mut bytes = vec![
        0x41, 0x42, 0x49, 0x46, 0x00, 0x65, 0x74, 0x64, 0x69, 0x72, 0x00, 0x00, 0x00, 0x01, 0x03,
        0xFF, 0x00, 0x1C, 0x00, 0x00, 0x00, 0x01, 0x00, 0x00, 0x00, 0x1C, 0x00, 0x00, 0x00, 0x80,
        0x00, 0x00, 0x00, 0x00,
    ];
    bytes.extend([0; 94]);
    bytes.extend([
        0x41, 0x42, 0x43, 0x44, 0x00, 0x00, 0x00, 0x01, 0x00, 0x04, 0x00, 0x02, 0x00, 0x00, 0x00,
        0x02, 0x00, 0x00, 0x00, 0x04, 0x00, 0x01, 0xFF, 0xFE, 0x00, 0x00, 0x00, 0x00,
    ]);
    bytes
}

/// W6: the directory at 128 and three shorts at 156.
pub fn one_item_at_an_offset() -> Vec<u8> {
    one(three_shorts(), Order::DirectoryFirst).bytes()
}

/// W12: a date of month 13, which only reading the element refuses.
pub fn month_thirteen() -> Vec<u8> {
    let date = Content::listed(10, vec![0x07, 0xD6, 13, 1]);
    one(date, Order::DirectoryFirst).bytes()
}

fn three_shorts() -> Content {
    Content::listed(4, vec![0x00, 0x01, 0xFF, 0xFE, 0x7F, 0xFF])
}

fn one(content: Content, order: Order) -> Draft {
    plain_file(&[(ABCD, content)], order)
}

pub fn all() -> Vec<Sample> {
    let mut samples = whole_samples();
    samples.extend(refused_in_the_header());
    samples.extend(refused_at_an_entry());
    samples.extend(a_run());
    samples.extend(a_run_of_fragments());
    samples
}

// A whole run, and the same cut in the middle of its last channel.
fn a_run() -> [Sample; 2] {
    let whole = run::run().bytes();
    let shorter = whole.len() - run::channel_length() / 2;
    [
        ("run.ab1", whole.clone()),
        ("cut-run.ab1", cut(whole, shorter)),
    ]
}

// A whole run of fragments, and the same cut in the middle of its fifth dye's channel.
fn a_run_of_fragments() -> [Sample; 2] {
    let whole = fragments::fragments().bytes();
    let shorter = whole.len() - fragments::channel_length() / 2;
    [
        ("fragments.fsa", whole.clone()),
        ("cut-fragments.fsa", cut(whole, shorter)),
    ]
}

fn whole_samples() -> Vec<Sample> {
    let behind = one(three_shorts(), Order::DirectoryLast);
    let none = plain_file(&[], Order::DirectoryFirst);
    let empty = Content::listed(18, Vec::new());
    let mut longer = one_item_at_an_offset();
    longer.extend(b"bytes that no entry names");
    vec![
        ("one-inline-item.ab1", one_inline_item()),
        ("one-item-at-an-offset.ab1", one_item_at_an_offset()),
        ("directory-behind-the-data.ab1", behind.bytes()),
        ("directory-between-the-data.ab1", between().bytes()),
        ("overlapping-items.ab1", overlapping().bytes()),
        ("every-type.ab1", every_type().bytes()),
        ("no-entries.ab1", none.bytes()),
        ("empty-item.ab1", one(empty, Order::DirectoryFirst).bytes()),
        ("unusual-tags.ab1", unusual_tags().bytes()),
        ("bytes-behind-the-end.ab1", longer),
        ("month-thirteen.ab1", month_thirteen()),
    ]
}

fn between() -> Draft {
    let first = (Tag::new(b"DATA", 1), three_shorts());
    let text = Content::listed(18, b"\x06sample".to_vec());
    let second = (Tag::new(b"SMPL", 1), text);
    plain_file(&[first, second], Order::DirectoryBetween)
}

// The second item starts inside the first and the third is the directory itself.
fn overlapping() -> Draft {
    let bytes = Content::listed(1, (1..=10).collect());
    let words = Content::listed(3, (1..=6).collect());
    let raw = Content::raw(1024, 28, 3, vec![0; 84]);
    let tags = [1, 2, 3].map(|number| Tag::new(b"OVER", number));
    let items: Vec<(Tag, Content)> = tags.into_iter().zip([bytes, words, raw]).collect();
    let mut draft = plain_file(&items, Order::DirectoryFirst);
    let first = draft.entries[0].offset();
    draft.entries[1].set_offset(first + 2);
    draft.entries[2].set_offset(draft.place as i32);
    draft.body.truncate(draft.extent());
    draft
}

fn every_type() -> Draft {
    let mut random = Random::new(1);
    let mut items = Vec::new();
    for code in all_codes() {
        let content = if Type::from_code(code) == Some(Type::Raw) {
            Content::raw(code, 1, 6, (1..=6).collect())
        } else {
            let count = 12 / element_size(code) + 1;
            Content::listed(code, listed_data(&mut random, code, count))
        };
        items.push((Tag::new(b"TYPE", code.into()), content));
    }
    plain_file(&items, Order::DirectoryLast)
}

fn unusual_tags() -> Draft {
    let tags = [
        Tag::new(b"\x1F \x7E\x7F", -1),
        Tag::new(b"\x00\xFFAB", i32::MIN),
        Tag::new(b"tdir", i32::MAX),
        Tag::new(b"ABCD", 0),
    ];
    plain_file(&tags.map(|tag| (tag, three_shorts())), Order::DirectoryLast)
}

fn refused_in_the_header() -> Vec<Sample> {
    let draft = one(three_shorts(), Order::DirectoryFirst);
    let changed = |change: fn(&mut Draft)| {
        let mut copy = draft.clone();
        change(&mut copy);
        copy.bytes()
    };
    vec![
        ("mark-alone.ab1", b"ABIF".to_vec()),
        ("cut-in-the-directory.ab1", cut(one_inline_item(), 155)),
        ("version-200.ab1", changed(|draft| draft.version = 200)),
        (
            "other-directory-tag.ab1",
            changed(|draft| draft.header.tag.number = 2),
        ),
        (
            "thousand-entries.ab1",
            changed(|draft| draft.header.count = 1000),
        ),
        (
            "directory-in-the-header.ab1",
            changed(|draft| draft.header.set_offset(127)),
        ),
        (
            "directory-past-the-end.ab1",
            changed(|draft| draft.header.set_offset(i32::MAX)),
        ),
    ]
}

fn refused_at_an_entry() -> Vec<Sample> {
    let draft = between();
    let changed = |change: fn(&mut Draft)| {
        let mut copy = draft.clone();
        change(&mut copy);
        copy.bytes()
    };
    vec![
        ("cut-in-the-data.ab1", cut(one_item_at_an_offset(), 161)),
        (
            "tag-twice.ab1",
            changed(|draft| draft.entries[1].tag = draft.entries[0].tag),
        ),
        (
            "unknown-type.ab1",
            changed(|draft| draft.entries[1].type_code = 21),
        ),
        (
            "sizes-contradict.ab1",
            changed(|draft| draft.entries[0].count = 4),
        ),
        (
            "item-in-the-header.ab1",
            changed(|draft| draft.entries[1].set_offset(127)),
        ),
    ]
}
