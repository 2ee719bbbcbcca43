//! The checks of the rows' scales.

use super::check::Row;
use super::contents::{Channel, Contents};
use crate::findings::Findings;
use crate::picture::{number, of_class};
use crate::xml::Element;

/// How many times as wide as the values, with nought among them, a scale may be.
const WIDEST_SCALE: f64 = 2.5;
/// How wide a scale may be in any case.
const SMALLEST_SCALE: f64 = 110.0;
/// Of so many values of a channel one may lie outside.
const FEW: usize = 100;
/// What the scale of a row of fragments goes up to at least.
const LEAST_TOP: f64 = 100.0;

/// The values at a row's top and bottom, and its height.
pub struct Scale {
    pub top: f64,
    bottom: f64,
    pub height: f64,
}

impl Scale {
    pub fn of(row: &Element) -> Option<Scale> {
        let scale = Scale {
            top: number(row, "data-top")?,
            bottom: number(row, "data-bottom")?,
            height: number(row, "data-height")?,
        };
        (scale.top > scale.bottom && scale.height > 0.0).then_some(scale)
    }

    /// How far below the top a value stands.
    pub fn place(&self, value: i64) -> f64 {
        (self.top - value as f64) * self.height / (self.top - self.bottom)
    }
}

/// Checks the scales, and what the rows tell of what leaves them.
pub fn check_scales(findings: &mut Findings, rows: &[Row], contents: &Contents) {
    if contents.is_fragments {
        check_own_scales(findings, rows, contents);
    } else {
        check_one_scale(findings, rows, contents);
    }
    check_off_scale(findings, rows, contents);
}

// The highest and the lowest of the values, with nought among them.
fn bounds(values: impl Iterator<Item = i64>) -> (f64, f64) {
    let bounds = values.fold((0, 0), |(least, most), value| {
        (value.min(least), value.max(most))
    });
    (bounds.0 as f64, bounds.1 as f64)
}

// A scale that is much wider than the values would squeeze their traces flat; one that cuts the
// few that lie far off is allowed.
fn check_one_scale(findings: &mut Findings, rows: &[Row], contents: &Contents) {
    let (least, most) = bounds(contents.values_in_range());
    let scales: Vec<Scale> = rows
        .iter()
        .filter_map(|row| Scale::of(row.element))
        .collect();
    for scale in &scales {
        let widest = SMALLEST_SCALE.max(WIDEST_SCALE * (most - least));
        let is_one = scale.top == scales[0].top && scale.bottom == scales[0].bottom;
        findings.check(scale.top - scale.bottom <= widest && is_one, || {
            format!(
                "a scale from {} to {} for {least} to {most}",
                scale.bottom, scale.top
            )
        });
    }
    for channel in &contents.channels {
        let scale = scales.first();
        findings.check(
            scale.is_none_or(|scale| is_inside(scale, contents, channel)),
            || format!("{} lies outside of the scale", channel.part),
        );
    }
}

// A channel that lies outside would be there, and not to be seen.
fn is_inside(scale: &Scale, contents: &Contents, channel: &Channel) -> bool {
    let values = contents.range.values(channel);
    let is_outside = |value: &&i64| **value as f64 > scale.top || (**value as f64) < scale.bottom;
    values.iter().filter(is_outside).count() <= values.len() / FEW
}

// Every row of fragments has the scale that its own values need, and a tenth of what all need.
fn check_own_scales(findings: &mut Findings, rows: &[Row], contents: &Contents) {
    let (_, most) = bounds(contents.values_in_range());
    for row in rows {
        let Some(scale) = Scale::of(row.element) else {
            continue;
        };
        let channels = contents.channels.iter();
        let values = channels.flat_map(|it| contents.range.values_in_row(it, row.index));
        let (least, highest) = bounds(values.copied());
        let needed = highest.max(most.max(LEAST_TOP) / 10.0).max(LEAST_TOP);
        let is_bottom = if least < 0.0 {
            scale.bottom <= least && scale.bottom >= (WIDEST_SCALE * least).min(-scale.top / 2.0)
        } else {
            scale.bottom == 0.0
        };
        let is_top = (needed.floor()..=2.0 * needed).contains(&scale.top);
        findings.check(is_top && is_bottom, || {
            format!(
                "row {}: a scale from {} to {} for {least} to {highest}, {most} in all",
                row.index, scale.bottom, scale.top
            )
        });
    }
}

// A row tells the highest and the lowest of its values that leave the scale.
fn check_off_scale(findings: &mut Findings, rows: &[Row], contents: &Contents) {
    for row in rows {
        let points = contents.channels.iter();
        let points = points.flat_map(|channel| contents.range.line(channel, row.index));
        let values: Vec<i64> = points.map(|(_, value)| value).collect();
        let scale = Scale::of(row.element);
        let above = |value: &&i64| scale.as_ref().is_some_and(|it| **value as f64 > it.top);
        let below = |value: &&i64| {
            scale
                .as_ref()
                .is_some_and(|it| (**value as f64) < it.bottom)
        };
        let highest = values.iter().max().filter(above).map(|value| ('▲', value));
        let lowest = values.iter().min().filter(below).map(|value| ('▼', value));
        let told = highest.into_iter().chain(lowest);
        let told: Vec<String> = told
            .map(|(sign, value)| format!("{sign} {value}"))
            .collect();
        let found = of_class(row.element, "off-scale").into_iter();
        let found: Vec<String> = found.map(|it| it.words.replace(',', "")).collect();
        findings.check(found == told, || {
            format!(
                "row {} tells {found:?} of what leaves its scale, not {told:?}",
                row.index
            )
        });
    }
}
