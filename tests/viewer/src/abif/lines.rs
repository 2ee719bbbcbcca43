//! The checks of the lines of a row: the traces, each point of which stands for its value.

use super::check::Row;
use super::contents::Contents;
use super::range::Point;
use super::scale::Scale;
use crate::findings::Findings;
use crate::picture;
use crate::xml::Element;

/// Half of the last decimal that a point has, and what floats lose.
const ROUNDING: f64 = 0.050_001;

/// All lines of points, whatever they are called.
pub fn traces(root: &Element) -> Vec<&Element> {
    let mut lines = picture::all(root);
    lines.retain(|element| element.name == "polyline" || picture::has_class(element, "trace"));
    lines
}

/// Checks that a row has a line for each channel that has points there, and no other line.
pub fn check_lines(findings: &mut Findings, row: &Row, contents: &Contents) {
    let range = &contents.range;
    let expected: Vec<(&str, Vec<Point>)> = contents
        .channels
        .iter()
        .map(|channel| (channel.part.as_str(), range.line(channel, row.index)))
        .filter(|(_, points)| !points.is_empty())
        .collect();
    let lines = traces(row.element);
    let mut drawn: Vec<(&str, &Element)> = lines
        .iter()
        .map(|line| (line.attribute("data-part").unwrap_or("no part"), *line))
        .collect();
    drawn.sort_by_key(|(part, _)| expected.iter().position(|(other, _)| other == part));
    let fits = drawn.len() == expected.len()
        && drawn
            .iter()
            .zip(&expected)
            .all(|(one, other)| one.0 == other.0);
    findings.check(fits, || {
        let parts = |(part, _): &(&str, Vec<Point>)| part.to_string();
        let expected: Vec<String> = expected.iter().map(parts).collect();
        format!("row {} draws {drawn:?}, there are {expected:?}", row.index)
    });
    for ((part, line), (_, points)) in drawn.into_iter().zip(&expected) {
        check_line(findings, row, (part, line), points);
    }
    let all = picture::all(row.element);
    let others = all.into_iter().filter(is_other_line).count();
    findings.check(others == 0, || {
        format!("{others} lines in row {} that are no traces", row.index)
    });
}

// A row has no lines but its traces and those of its frame.
fn is_other_line(element: &&Element) -> bool {
    let is_line = matches!(element.name.as_str(), "path" | "line" | "polygon");
    is_line
        && !["grid", "frame"]
            .iter()
            .any(|class| picture::has_class(element, class))
}

fn check_line(
    findings: &mut Findings,
    row: &Row,
    (part, line): (&str, &Element),
    expected: &[Point],
) {
    let is_trace = line.name == "polyline" && picture::has_class(line, "trace");
    findings.check(is_trace, || format!("{part}: a line that is no trace"));
    let Some(scale) = Scale::of(row.element) else {
        return findings.check(false, || format!("row {} has no scale", row.index));
    };
    let fault = match points(line.attribute("points").unwrap_or("")) {
        None => Some("points that are no numbers".to_string()),
        Some(points) => fault(&scale, &points, expected),
    };
    findings.check(fault.is_none(), || {
        format!("row {}, {part}: {}", row.index, fault.unwrap_or_default())
    });
}

// The first point that does not stand for its value.
fn fault(scale: &Scale, points: &[(f64, f64)], values: &[Point]) -> Option<String> {
    if points.len() != values.len() {
        return Some(format!("{} points for {}", points.len(), values.len()));
    }
    for (index, (&(x, y), &(place, value))) in points.iter().zip(values).enumerate() {
        let expected = scale.place(value);
        let lost = ROUNDING + expected.abs() * 1e-12;
        if (x - place).abs() > 1e-9 || (y - expected).abs() > lost {
            return Some(format!("point {index} is {x},{y} for {value} at {place}"));
        }
    }
    None
}

fn points(text: &str) -> Option<Vec<(f64, f64)>> {
    let point = |text: &str| {
        let (x, y) = text.split_once(',')?;
        Some((decimal(x)?, decimal(y)?))
    };
    text.split_whitespace().map(point).collect()
}

// Digits with at most one decimal, and nothing else that a float may be written as.
fn decimal(text: &str) -> Option<f64> {
    let digits = text.strip_prefix('-').unwrap_or(text);
    let (whole, part) = digits.split_once('.').unwrap_or((digits, "0"));
    let is_digits =
        |digits: &str| !digits.is_empty() && digits.bytes().all(|digit| digit.is_ascii_digit());
    let is_plain = is_digits(whole) && is_digits(part) && part.len() == 1;
    is_plain.then(|| text.parse().ok()).flatten()
}
