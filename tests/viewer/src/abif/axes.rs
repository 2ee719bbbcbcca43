//! The checks of the numbers at a row's two axes.

use super::check::Row;
use super::contents::Contents;
use super::scale::Scale;
use crate::findings::Findings;
use crate::picture::{all, number};
use crate::xml::Element;

/// How far the foot of a number may be from the value that it stands for.
const FOOT: f64 = 6.0;
/// How far a number may be from its point, and how far below the plot the numbers of the points begin.
const ASIDE: f64 = 10.0;
const BELOW: f64 = 8.0;

/// Checks that every number at an axis stands at its value or its point, and that both axes have some.
pub fn check_axes(findings: &mut Findings, row: &Row, contents: &Contents) {
    let Some(scale) = Scale::of(row.element) else {
        return;
    };
    if contents.range.length == 0 {
        return;
    }
    let first = contents.range.points * row.index;
    let (mut values, mut points) = (Vec::new(), 0);
    for (text, x, y) in numbers(row.element) {
        let told: i64 = text.words.replace(',', "").parse().unwrap_or(0);
        if x < 0.0 && (0.0..=scale.height + BELOW).contains(&y) {
            values.push(told as f64);
            findings.check((y - scale.place(told)).abs() <= FOOT, || {
                format!("row {}: {told} at {y}", row.index)
            });
        }
        if x >= 0.0 && y > scale.height + BELOW {
            points += 1;
            let place = usize::try_from(told)
                .ok()
                .and_then(|it| it.checked_sub(first));
            let place = place.map(|place| contents.range.place(place));
            findings.check(
                place.is_some_and(|place| (x - place).abs() <= ASIDE),
                || format!("row {}: point {told} at {x}", row.index),
            );
        }
    }
    let is_told = values.len() >= 2 && values.contains(&scale.top) && points >= 1;
    findings.check(is_told, || {
        format!("row {}: values {values:?} and {points} points", row.index)
    });
}

// The texts that are numbers and nothing else, and where they stand.
fn numbers(row: &Element) -> Vec<(&Element, f64, f64)> {
    let is_number = |text: &&Element| {
        let digits = text.words.strip_prefix('-').unwrap_or(&text.words);
        text.name == "text"
            && digits.starts_with(|first: char| first.is_ascii_digit())
            && digits.chars().all(|it| it.is_ascii_digit() || it == ',')
    };
    let texts = all(row).into_iter().filter(is_number);
    texts
        .filter_map(|text| Some((text, number(text, "x")?, number(text, "y")?)))
        .collect()
}
