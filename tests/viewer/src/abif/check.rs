//! The checks of an ABIF file's picture.

use super::axes::check_axes;
use super::contents::Contents;
use super::letters::check_letters;
use super::lines::{check_lines, traces};
use super::scale::check_scales;
use super::told::check_told;
use crate::findings::Findings;
use crate::picture::{self, grouped, number, of_class, Said};
use crate::verdict;
use crate::xml::Element;
use std::collections::BTreeSet;

/// What a tenth of a pixel at both ends of a box may come to.
const BOX_ROUNDING: f64 = 0.150_001;
/// How wide the box behind a channel's end is at least, so that it can be seen.
const NARROWEST_BOX: f64 = 2.0;

/// A row that is drawn, and its number from none.
pub struct Row<'a> {
    pub element: &'a Element,
    pub index: usize,
}

/// Checks all that the picture shows; tells whether a channel is refused.
pub fn check(
    findings: &mut Findings,
    root: &Element,
    bytes: &[u8],
    raw: bool,
    points: Option<u64>,
) -> bool {
    let contents = Contents::of(bytes, raw, points);
    let said = |part: &str, refusal| Said::of(label_of(&contents, part), refusal);
    picture::check_frame(findings, root, bytes, &contents.parts, said);
    let rows = rows(findings, root, &contents);
    let is_refused = verdict::refused(bytes).is_some();
    for row in &rows {
        check_row(findings, row, &contents);
        check_lines(findings, row, &contents);
        check_axes(findings, row, &contents);
        check_ended(findings, row, &contents);
        let is_drawn = !traces(row.element).is_empty();
        picture::check_mark(findings, row.element, is_drawn, is_refused);
    }
    check_only_in_rows(findings, root, &rows);
    check_scales(findings, &rows, &contents);
    check_letters(findings, root, &rows, &contents);
    check_front(findings, root, &contents);
    picture::check_left_out(findings, root, contents.range.left_out());
    check_told(findings, root, bytes, &contents);
    !contents.refused_channels().is_empty()
}

fn label_of(contents: &Contents, part: &str) -> String {
    let mut channels = contents.channels.iter();
    let channel = channels.find(|channel| channel.part == part);
    channel.map_or(part.to_string(), |channel| channel.label())
}

// The rows behind the flat front, up to the last one of the range.
fn rows<'a>(findings: &mut Findings, root: &'a Element, contents: &Contents) -> Vec<Row<'a>> {
    let elements = of_class(root, "row");
    let expected = contents.folded()..contents.range.rows();
    findings.check(elements.len() == expected.len(), || {
        format!("{} rows for {expected:?}", elements.len())
    });
    let rows = elements.into_iter().zip(expected);
    rows.map(|(element, index)| Row { element, index })
        .collect()
}

// A row says where it starts, and has a box for every channel that is refused.
fn check_row(findings: &mut Findings, row: &Row, contents: &Contents) {
    let points = contents.range.points;
    let expected = [Some(points * row.index), Some(points)];
    let found = ["data-first", "data-points"].map(|name| number(row.element, name));
    findings.check(row.element.name == "g" && found == expected, || {
        format!("row {} is {found:?} and not {expected:?}", row.index)
    });
    let missing = contents.refused_channels();
    let hatched = picture::hatched(row.element);
    findings.check(missing == hatched, || {
        format!(
            "row {} hatches {hatched:?}, refused are {missing:?}",
            row.index
        )
    });
}

// Nothing that belongs to a row stands outside of all rows.
fn check_only_in_rows(findings: &mut Findings, root: &Element, rows: &[Row]) {
    let classes = ["ended", "ended-words", "no-quality", "quality", "crowded"];
    let count = |root: &Element| -> usize {
        let of_classes = classes.iter().map(|class| of_class(root, class).len());
        of_classes.sum::<usize>() + traces(root).len()
    };
    let in_rows: usize = rows.iter().map(|row| count(row.element)).sum();
    let in_all = count(root);
    findings.check(in_all == in_rows, || {
        format!("{in_all} lines, boxes and marks, {in_rows} in rows")
    });
}

/// A channel's end in a row: its part, how many values it has, and the box behind its last one.
#[derive(Debug)]
struct Ended {
    part: String,
    count: usize,
    x: f64,
    width: f64,
    words: String,
}

fn ended(row: &Row, contents: &Contents) -> Vec<Ended> {
    let range = &contents.range;
    let first = range.points * row.index;
    let last = range.last_point(row.index);
    let channels = contents.channels.iter().filter(|it| it.values.is_ok());
    let ended = channels.filter(|it| it.length() < range.length && last >= it.length());
    let ended = ended.map(|channel| {
        let count = channel.length();
        let [from, to] = [(count - 1).saturating_sub(first), last - first];
        let [from, to] = [from, to].map(|point| range.place(point));
        let width = (to - from).max(NARROWEST_BOX);
        let point = grouped(count as i64 - 1);
        Ended {
            part: channel.part.clone(),
            count,
            x: (to - width).max(0.0),
            width,
            words: format!("{}: ends after point {point}", channel.label()),
        }
    });
    ended.collect()
}

// Where a channel has ended and another one has not, there is a box with words and not just no line.
fn check_ended(findings: &mut Findings, row: &Row, contents: &Contents) {
    let expected = ended(row, contents);
    let boxes = of_class(row.element, "ended");
    let words = of_class(row.element, "ended-words");
    let is_near = |element: &Element, name, expected: f64| {
        number::<f64>(element, name).is_some_and(|it| (it - expected).abs() <= BOX_ROUNDING)
    };
    let stands_for = |(hatched, ended): (&&Element, &Ended)| {
        hatched.attribute("data-part") == Some(&ended.part)
            && number(hatched, "data-count") == Some(ended.count)
            && is_near(hatched, "x", ended.x)
            && is_near(hatched, "width", ended.width)
    };
    let fits = boxes.len() == expected.len() && boxes.iter().zip(&expected).all(stands_for);
    findings.check(fits, || {
        format!("row {}: {boxes:?} for {expected:?}", row.index)
    });
    let found: Vec<&str> = words.iter().map(|text| text.words.as_str()).collect();
    let told: Vec<&str> = expected.iter().map(|ended| ended.words.as_str()).collect();
    findings.check(found == told, || {
        format!("row {} says {found:?} and not {told:?}", row.index)
    });
    check_lanes(findings, row, &boxes, &words);
}

// Each has a lane of its own below the plot, with its words in it.
fn check_lanes(findings: &mut Findings, row: &Row, boxes: &[&Element], words: &[&Element]) {
    let height = number::<f64>(row.element, "data-height").unwrap_or(0.0);
    let is_below = |hatched: &&Element| number::<f64>(hatched, "y") >= Some(height);
    let places: BTreeSet<&str> = boxes.iter().filter_map(|it| it.attribute("y")).collect();
    let is_apart = boxes.iter().all(is_below) && places.len() == boxes.len();
    findings.check(is_apart, || format!("{boxes:?} share a lane or the plot"));
    let mut both = boxes.iter().zip(words);
    let fits = both.all(|(hatched, text)| picture::is_beside(text, hatched));
    findings.check(fits, || format!("{words:?} are not in {boxes:?}"));
}

// The flat rows at the front of a run of fragments are told and not drawn.
fn check_front(findings: &mut Findings, root: &Element, contents: &Contents) {
    let points = contents.range.points * contents.folded();
    let channels = contents.channels.iter();
    let values = channels.flat_map(|channel| {
        let values = channel.values.as_deref().unwrap_or(&[]);
        &values[..values.len().min(points)]
    });
    let bounds = values.clone().min().zip(values.max());
    let expected: Vec<[Option<i64>; 4]> = bounds
        .map(|(&least, &most)| [0, points as i64 - 1, least, most].map(Some))
        .into_iter()
        .collect();
    let names = ["data-first", "data-last", "data-lowest", "data-highest"];
    let fronts = of_class(root, "front");
    let found: Vec<[Option<i64>; 4]> = fronts
        .iter()
        .map(|front| names.map(|name| number(front, name)))
        .collect();
    findings.check(found == expected, || {
        format!("the front is {found:?} and not {expected:?}")
    });
    let is_told = fronts.iter().all(|front| !front.words.is_empty());
    findings.check(is_told, || "a front without words".to_string());
}
