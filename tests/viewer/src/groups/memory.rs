//! Runs that are far longer than memory should be: what drawing them takes, and that no peak is lost.

use crate::abif::files::shorts;
use crate::drawing::{check_all_with, read, Input, Paper, Wish, PLAIN};
use crate::picture::{number, of_class};
use crate::program::{output, Output, Program};
use crate::scratch::Scratch;
use crate::screen;
use crate::xml::Element;
use compare::abif::generate::{plain_file, Content, Order};
use compare::abif::reader::Tag;
use compare::report::Group;
use std::fs::{self, OpenOptions};
use std::io;
use std::os::unix::fs::FileExt;
use std::path::{Path, PathBuf};
use std::process::Command;

/// So many points has each of four channels.
const POINTS: i32 = 500_000_000;
/// So many points of these fill as many rows as are drawn.
const POINTS_IN_A_ROW: u64 = 2_500_000;
const MOST_ROWS: usize = 200;
const MOST_KILOBYTES: u64 = 200_000;

/// The one high point of the long run.
const PEAK_PLACE: u64 = 311_111_111;
const PEAK: i16 = 12_321;

pub fn memory(group: &mut Group) {
    let scratch = Scratch::new();
    let file = long_run(&scratch);
    let pages = Wish::pages(Paper::A4);
    for wish in [PLAIN, pages, Wish::points(POINTS_IN_A_ROW)] {
        group.input();
        let picture = scratch.path(format!("picture.{}", wish.ending()));
        let drawn = draw_in_little_memory(&file, &picture, wish);
        let is_drawn = matches!(&drawn, Ok(output) if output.status == Some(0));
        group.check(is_drawn, &[], || format!("{wish:?}: {drawn:?}"));
        let read = read(&fs::read(&picture).unwrap_or_default(), wish);
        let root = read.unwrap_or_default();
        check_rows(group, &root, wish);
    }
    let words = format!("draw run.ab1 --points {POINTS_IN_A_ROW} -o terminal.svg >line");
    screen::check_progress(group, scratch.folder(), &words, "drawing: ");
    single_peak(group);
}

// Four channels of the same place, of noughts but for one point, which take no room on the disk.
fn long_run(scratch: &Scratch) -> PathBuf {
    let order = Content::listed(2, b"GATC".to_vec());
    let mut items = vec![(Tag::new(b"FWO_", 1), order)];
    items.extend((9..=12).map(|number| (Tag::new(b"DATA", number), shorts([0; 4]))));
    let mut draft = plain_file(&items, Order::DirectoryFirst);
    let start = draft.entries[1].offset();
    for entry in &mut draft.entries[1..] {
        entry.count = POINTS;
        entry.data_size = 2 * POINTS;
        entry.set_offset(start);
    }
    let path = scratch.write("run.ab1", &draft.bytes());
    let file = OpenOptions::new().write(true).open(&path);
    let file = file.expect("the file can be opened");
    let length = start as u64 + 2 * POINTS as u64;
    let place = start as u64 + 2 * PEAK_PLACE;
    file.set_len(length)
        .and_then(|()| file.write_all_at(&PEAK.to_be_bytes(), place))
        .expect("a long file can be made");
    path
}

// Draws with no more memory of its own than that; the mapped file does not count.
fn draw_in_little_memory(file: &Path, picture: &Path, wish: Wish) -> io::Result<Output> {
    let limited = format!("ulimit -d {MOST_KILOBYTES} && exec \"$@\"");
    let mut command = Command::new("sh");
    command.args(["-c", &limited, "sh"]);
    command.arg(Program::plain().path());
    command.args(wish.arguments(file, picture));
    output(command)
}

// No more rows than are drawn of any run, the rest told, and the peak where its row is drawn.
fn check_rows(group: &mut Group, root: &Element, wish: Wish) {
    let points = wish.points.unwrap_or(500);
    let rows = of_class(root, "row");
    group.check(rows.len() == MOST_ROWS, &[], || {
        format!("{wish:?}: {} rows", rows.len())
    });
    let from = MOST_ROWS as u64 * points + 1;
    let expected = (from < POINTS as u64).then_some((Some(from), Some(POINTS as u64 - 1)));
    let found: Vec<_> = of_class(root, "left-out")
        .into_iter()
        .map(|text| (number(text, "data-from"), number(text, "data-to")))
        .collect();
    group.check(found == Vec::from_iter(expected), &[], || {
        format!("{wish:?}: {found:?} and not {expected:?}")
    });
    let row = rows.get((PEAK_PLACE / points) as usize);
    let column = 1000 * (PEAK_PLACE % points) / points;
    let is_lost = row.is_some_and(|row| !has_peak(row, column, PEAK.into()));
    group.check(!is_lost, &[], || format!("{wish:?}: the peak is lost"));
}

// Whether each line of the row goes up to this value at this column.
fn has_peak(row: &Element, column: u64, value: f64) -> bool {
    let scale = ["data-top", "data-bottom", "data-height"].map(|name| number::<f64>(row, name));
    let [Some(top), Some(bottom), Some(height)] = scale else {
        return false;
    };
    let y = (top - value) * height / (top - bottom);
    let start = format!("{column},");
    let is_peak = |point: &str| {
        let found = point.strip_prefix(&start).and_then(|it| it.parse().ok());
        found.is_some_and(|found: f64| (found - y).abs() < 0.1)
    };
    let lines = of_class(row, "trace");
    let points = |line: &Element| line.attribute("points").unwrap_or("").to_string();
    !lines.is_empty()
        && lines
            .iter()
            .all(|line| points(line).split(' ').any(is_peak))
}

// A run of which one point is high is drawn with it, whatever the columns.
fn single_peak(group: &mut Group) {
    const LENGTH: usize = 3_000_000;
    const POINTS: u64 = 20_000;
    for place in [1_234_567, 20_000, 39_999, LENGTH - 1] {
        let mut points = vec![3; LENGTH];
        points[place] = PEAK;
        let channel = shorts(points);
        let items = [
            (Tag::new(b"FWO_", 1), Content::listed(2, b"GATC".to_vec())),
            (Tag::new(b"DATA", 9), channel),
        ];
        let bytes = plain_file(&items, Order::DirectoryFirst).bytes();
        let input = Input::new(format!("a peak at {place}"), bytes);
        let row = place / POINTS as usize;
        let column = 1000 * (place as u64 % POINTS) / POINTS;
        check_all_with(group, &[input], Wish::points(POINTS), |findings, root| {
            let rows = of_class(root, "row");
            let is_there = rows
                .get(row)
                .is_some_and(|row| has_peak(row, column, PEAK.into()));
            findings.check(is_there, || format!("the peak at {place} is lost"));
        });
    }
}
