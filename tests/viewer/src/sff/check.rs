//! The checks of an SFF file's picture.

use crate::abif::shows;
use crate::findings::Findings;
use crate::picture::{self, number, of_class, part, Parts, Said};
use crate::verdict;
use crate::xml::Element;
use compare::big_endian::u16_at;
use compare::sff::reader::{header, read, Header, Read, FIXED_HEADER};
use std::collections::{BTreeMap, BTreeSet};

const FLOWS_IN_A_ROW: usize = 100;
const FLOW_WIDTH: f64 = 10.0;
/// No picture has more rows.
const MOST_ROWS: usize = 200;
/// No flow has more letters under it.
const MOST_LETTERS: usize = 20;
/// The last decimal that a height has, and what floats lose.
const ROUNDING: f64 = 0.100_001;

/// Checks all that the picture shows; tells whether the read is refused.
pub fn check(findings: &mut Findings, root: &Element, bytes: &[u8], wanted: u64) -> bool {
    let header = header(bytes);
    let read = read(bytes, wanted);
    let mut parts = Parts::new();
    parts.extend(header.err().map(|refusal| part("header", refusal)));
    let name = format!("read {wanted}");
    parts.extend(read.as_ref().err().map(|&refusal| part(name, refusal)));
    let said = |part: &str, refusal| Said::of(label_of(part), refusal);
    picture::check_frame(findings, root, bytes, &parts, said);
    let is_refused = verdict::refused(bytes).is_some();
    picture::check_mark(findings, root, read.is_ok(), is_refused);
    match (header, &read) {
        (Ok(header), Ok(read)) => check_read(findings, root, bytes, header, read),
        _ => check_empty(findings, root),
    }
    read.is_err()
}

// A read's number has commas in its label.
fn label_of(part: &str) -> String {
    let number = part
        .strip_prefix("read ")
        .and_then(|number| number.parse().ok());
    number.map_or(part.to_string(), |number| {
        format!("read {}", picture::grouped(number))
    })
}

fn check_empty(findings: &mut Findings, root: &Element) {
    for class in ["flow", "letter", "clipped", "more", "left-out"] {
        let count = of_class(root, class).len();
        findings.check(count == 0, || format!("{count} of {class} without a read"));
    }
}

fn check_read(findings: &mut Findings, root: &Element, bytes: &[u8], header: Header, read: &Read) {
    let all_flows = usize::from(header.flows);
    let flows = all_flows.min(MOST_ROWS * FLOWS_IN_A_ROW);
    let rows = of_class(root, "row").len();
    let expected = flows.div_ceil(FLOWS_IN_A_ROW);
    findings.check(rows == expected, || {
        format!("{rows} rows for {flows} flows")
    });
    let left_out = (flows < all_flows).then_some((flows + 1, all_flows));
    picture::check_left_out(findings, root, left_out);
    check_flows(findings, root, bytes, flows, read);
    let steps = &bytes[read.steps_start..read.letters_start];
    let places: Vec<usize> = steps
        .iter()
        .scan(0, |sum, &step| {
            *sum += usize::from(step);
            Some(*sum)
        })
        .collect();
    check_letters(findings, root, bytes, &places, flows, read);
    let mut clipped = clipped_flows(&places, all_flows, read);
    clipped.retain(|&flow| flow <= flows);
    check_clipped(findings, root, &clipped);
}

fn check_flows(findings: &mut Findings, root: &Element, bytes: &[u8], flows: usize, read: &Read) {
    let found = of_class(root, "flow");
    findings.check(found.len() == flows, || {
        format!("{} flows for {flows}", found.len())
    });
    for (index, flow) in found.iter().take(flows).enumerate() {
        let letter = bytes[FIXED_HEADER + index];
        let value = u16_at(bytes, read.flows_start + 2 * index);
        let middle = number(flow, "x").zip(number(flow, "width"));
        let middle = middle.map(|(x, width): (f64, f64)| x + width / 2.0);
        let fits = flow.name == "rect"
            && middle == Some(middle_of(index + 1))
            && number(flow, "data-flow") == Some(index + 1)
            && number(flow, "data-value") == Some(value)
            && shows(flow.attribute("data-letter").unwrap_or(""), letter.into());
        findings.check(fits, || format!("{flow:?} for flow {}", index + 1));
    }
    check_heights(findings, &found);
    for (index, row) in of_class(root, "row").into_iter().enumerate() {
        let first = FIXED_HEADER + FLOWS_IN_A_ROW * index;
        let end = (first + FLOWS_IN_A_ROW).min(FIXED_HEADER + flows);
        check_flow_letters(findings, row, &bytes[first..end]);
    }
}

// Each flow's letter stands below its bar.
fn check_flow_letters(findings: &mut Findings, row: &Element, letters: &[u8]) {
    let mut texts = picture::all(row);
    texts.retain(|it| it.name == "text" && !picture::has_class(it, "letter"));
    for (index, &letter) in letters.iter().enumerate() {
        let mut below = texts
            .iter()
            .filter(|it| number(it, "x") == Some(middle_of(index + 1)));
        findings.check(below.any(|it| shows(&it.words, letter.into())), || {
            format!("no {:?} below flow {}", char::from(letter), index + 1)
        });
    }
}

// Where a flow, from one, stands in its row.
fn middle_of(flow: usize) -> f64 {
    FLOW_WIDTH * (((flow - 1) % FLOWS_IN_A_ROW) as f64 + 0.5)
}

// All bars that end below the highest are drawn to one scale.
fn check_heights(findings: &mut Findings, flows: &[&Element]) {
    let bars: Vec<(f64, f64)> = flows
        .iter()
        .filter_map(|flow| Some((number(flow, "data-value")?, number(flow, "height")?)))
        .collect();
    let highest = bars
        .iter()
        .fold(0.0, |highest: f64, bar| highest.max(bar.1));
    let lower = bars.iter().filter(|bar| bar.1 < highest - ROUNDING);
    let (value, height) = lower.fold(
        (0.0, 0.0),
        |most, &bar| if bar.0 > most.0 { bar } else { most },
    );
    let fits = bars.iter().all(|bar| {
        let is_highest = bar.1 >= highest - ROUNDING;
        let lost = ROUNDING * (value + bar.0);
        is_highest && bar.0 >= value || (bar.1 * value - bar.0 * height).abs() <= lost
    });
    let is_drawn = bars.iter().all(|bar| bar.0 < 100.0) || highest > 0.0;
    findings.check(fits && is_drawn, || {
        format!("bars of other heights: {bars:?}")
    });
}

// The letters under each flow that is drawn, as many as there is room for, and how many are more.
fn check_letters(
    findings: &mut Findings,
    root: &Element,
    bytes: &[u8],
    places: &[usize],
    flows: usize,
    read: &Read,
) {
    let mut under: BTreeMap<usize, usize> = BTreeMap::new();
    let mut expected = Vec::new();
    for (index, &flow) in places.iter().enumerate().filter(|(_, &flow)| flow <= flows) {
        let count = under.entry(flow).or_insert(0);
        *count += 1;
        if *count <= MOST_LETTERS {
            expected.push((index, flow));
        }
    }
    let found = of_class(root, "letter");
    findings.check(found.len() == expected.len(), || {
        format!("{} letters for {}", found.len(), expected.len())
    });
    for (letter, &(index, flow)) in found.iter().zip(&expected) {
        let base = index + 1;
        let is_kept = (read.first as usize..=read.last as usize).contains(&base);
        let fits = letter.name == "text"
            && number(letter, "x") == Some(middle_of(flow))
            && number(letter, "data-base") == Some(base)
            && number(letter, "data-flow") == Some(flow)
            && picture::has_class(letter, "clipped") != is_kept
            && shows(&letter.words, bytes[read.letters_start + index].into());
        findings.check(fits, || format!("{letter:?} for base {base}"));
    }
    under.retain(|_, count| *count > MOST_LETTERS);
    check_more(findings, root, &under);
}

fn check_more(findings: &mut Findings, root: &Element, under: &BTreeMap<usize, usize>) {
    let told = |text: &Element| {
        let flow: usize = number(text, "data-flow")?;
        let count: usize = number(text, "data-count")?;
        let is_told = text.words == format!("+{}", picture::grouped(count as i64));
        is_told.then_some((flow, count))
    };
    let texts = of_class(root, "more");
    let found: Vec<Option<(usize, usize)>> = texts.into_iter().map(told).collect();
    let expected = under.iter();
    let expected = expected.map(|(&flow, &count)| Some((flow, count - MOST_LETTERS)));
    let expected: Vec<Option<(usize, usize)>> = expected.collect();
    findings.check(found == expected, || {
        format!("more letters are {found:?} and not {expected:?}")
    });
}

// The flows on both sides of the insert, or all of them where there is none.
fn clipped_flows(places: &[usize], flows: usize, read: &Read) -> BTreeSet<usize> {
    let (first, last) = (read.first as usize, read.last as usize);
    if places.is_empty() {
        return BTreeSet::new();
    }
    if first > last {
        return (1..=flows).collect();
    }
    let mut clipped = BTreeSet::new();
    if first > 1 {
        clipped.extend(1..places[first - 1]);
    }
    if last < places.len() {
        clipped.extend(places[last - 1] + 1..=flows);
    }
    clipped
}

// Boxes that do not overlap, none of them over two rows.
fn check_clipped(findings: &mut Findings, root: &Element, expected: &BTreeSet<usize>) {
    let mut covered = BTreeSet::new();
    let mut boxes = of_class(root, "clipped");
    boxes.retain(|element| !picture::has_class(element, "letter"));
    for clipped in boxes {
        let from = number::<usize>(clipped, "data-from").unwrap_or(0);
        let to = number::<usize>(clipped, "data-to").unwrap_or(0);
        let row = |flow: usize| flow.saturating_sub(1) / FLOWS_IN_A_ROW;
        let fits = clipped.name == "rect" && 1 <= from && from <= to && row(from) == row(to);
        let is_new = (from..=to).all(|flow| covered.insert(flow));
        findings.check(fits && is_new, || format!("the clipped end {clipped:?}"));
    }
    findings.check(covered == *expected, || {
        format!("clipped are {covered:?} and not {expected:?}")
    });
}
