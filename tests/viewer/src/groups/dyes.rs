//! Channels of many dyes, with and without a base order, and runs of fragments.

use crate::abif::files::{
    dye_channel, dye_count, fragments_of, letters_at, shorts, string, Fragments, Items,
};
use crate::apart::check_apart;
use crate::drawing::{check_all, check_all_with, Input, Wish, PLAIN};
use compare::abif::generate::{plain_file, Content, Order};
use compare::abif::reader::Tag;
use compare::report::Group;

const TOLD: [i16; 12] = [1, 2, 3, 4, 5, 6, 15, 16, 17, 0, -1, i16::MAX];

/// Flat fronts at and around the ends of rows, and runs that are flat from end to end.
const FRONTS: [(usize, usize); 9] = [
    (0, 900),
    (3, 1200),
    (499, 1200),
    (500, 1200),
    (502, 1200),
    (1010, 2400),
    (2100, 2101),
    (1300, 1300),
    (9000, 30_000),
];

pub fn dyes(group: &mut Group) {
    let mut inputs = Vec::new();
    for told in TOLD {
        for stored in [0, 3, 4, 5, 16] {
            let name = format!("{told} dyes, {stored} channels");
            inputs.push(Input::new(name, run_of(vec![dye_count(told)], stored)));
        }
    }
    for (name, items) in strange_counts() {
        inputs.push(Input::new(name, run_of(items, 5)));
    }
    inputs.extend(refused_channels());
    check_all(group, &inputs, PLAIN);
    check_all(group, &inputs, Wish::raw());
}

pub fn fragments(group: &mut Group) {
    let mut inputs = Vec::new();
    for (front, length) in FRONTS {
        for (dyes, raw) in [(5, false), (5, true), (6, false), (1, true)] {
            let run = Fragments::new(dyes, raw, front, length);
            let name = format!("{dyes} dyes, raw {raw}, {front} of {length} flat");
            inputs.push(Input::new(name, run.bytes(Order::DirectoryLast)));
        }
    }
    for wish in [PLAIN, Wish::points(50), Wish::points(1700)] {
        check_all_with(group, &inputs, wish, check_apart);
    }
    check_all(group, &almost(), PLAIN);
    check_all(group, &hardly_flat(), PLAIN);
}

// Items, a base order, letters, and so many channels of both kinds, each shorter than the one before.
fn run_of(mut items: Items, channels: i32) -> Vec<u8> {
    items.extend(letters_at(&[5, 15, 25, 35, 45, 55, 65, 75, 83, 84, 85, 86]));
    items.push((Tag::new(b"FWO_", 1), Content::listed(2, b"TCAG".to_vec())));
    for dye in 1..=channels {
        items.push((dye_channel(dye, false), shorts(dye as i16..90)));
        items.push((
            dye_channel(dye, true),
            shorts((0..20).map(|it| it * dye as i16)),
        ));
        items.push(string(b"DyeN", dye, b"a dye"));
        items.push((Tag::new(b"DyeW", dye), shorts([1000 + dye as i16])));
    }
    plain_file(&items, Order::DirectoryFirst).bytes()
}

// Numbers of dyes of other types, with no elements, with many, and twice.
fn strange_counts() -> Vec<(String, Items)> {
    let count = |content: Content| vec![(Tag::new(b"Dye#", 1), content)];
    let mut counts: Vec<(String, Items)> = [1, 2, 3, 5, 7, 10, 13, 18, 19, 1024]
        .into_iter()
        .map(|code| {
            let items = count(Content::raw(code, 1, 4, vec![0, 0, 0, 6]));
            (format!("a number of dyes of type {code}"), items)
        })
        .collect();
    for code in [1, 2, 3, 5] {
        let items = count(Content::listed(code, vec![6; 8]));
        counts.push((format!("numbers of dyes of type {code}"), items));
    }
    let empty = count(Content::listed(4, Vec::new()));
    counts.push(("no number of dyes".to_string(), empty));
    let twice = vec![dye_count(5), dye_count(6)];
    counts.push(("two numbers of dyes".to_string(), twice));
    counts
}

// Channels behind the fourth that are refused, each in its own way.
fn refused_channels() -> Vec<Input> {
    let contents = [
        Content::listed(4, Vec::new()),
        Content::listed(7, vec![0; 40]),
        Content::raw(4, 3, 5, vec![0; 15]),
        Content::raw(0, 2, 5, vec![0; 10]),
        Content::listed(5, vec![1; 40]),
    ];
    let mut inputs = Vec::new();
    for content in contents {
        for dye in [5, 6, 16] {
            let mut items = vec![(dye_channel(dye, false), content.clone())];
            items.push((dye_channel(dye, true), content.clone()));
            let name = format!("dye {dye} is {content:?}");
            inputs.push(Input::new(name, run_of(items, 4)));
        }
    }
    inputs
}

// Rows that are just flat and just not, up and down.
fn hardly_flat() -> Vec<Input> {
    let mut inputs = Vec::new();
    for spread in [198, 199, 200, 201, 202, -198, -200, -202] {
        for highest in [10_000, 10_049, -10_000] {
            let spreads = [0, spread, 3, highest, spread];
            let name = format!("rows of {spreads:?}");
            inputs.push(Input::new(name, fragments_of(&spreads)));
        }
    }
    inputs
}

// Runs that have one thing that a run of fragments has not.
fn almost() -> Vec<Input> {
    let mut inputs = Vec::new();
    for (name, number) in [
        (b"FWO_", 1),
        (b"PBAS", 1),
        (b"PBAS", 2),
        (b"PLOC", 1),
        (b"PCON", 1),
    ] {
        for content in [
            Content::listed(2, b"GATC".to_vec()),
            Content::raw(4, 9, 9, vec![0; 9]),
        ] {
            let mut run = Fragments::new(4, false, 600, 1200);
            let told = format!("fragments with {} {number}", name.escape_ascii());
            run.items.push((Tag::new(name, number), content));
            run.items.push(string(b"SMPL", 1, b"another name"));
            inputs.push(Input::new(told, run.bytes(Order::DirectoryFirst)));
        }
    }
    inputs
}
