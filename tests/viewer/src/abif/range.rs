//! The rows of a run that are drawn, and the points in them.

use super::contents::Channel;

/// How wide the plot of a row is.
pub const PLOT_WIDTH: usize = 1000;
/// No picture has more rows.
const MOST_ROWS: usize = 200;
/// Rows of more points have columns of many points each.
const MOST_SINGLE_POINTS: usize = 1000;

/// A point of a line: where it stands, and its value.
pub type Point = (f64, i64);

pub struct Range {
    /// How many points the longest channel has.
    pub length: usize,
    /// How many points a row has; its last one is the next row's first.
    pub points: usize,
}

impl Range {
    pub fn of(length: usize, points: usize) -> Range {
        Range { length, points }
    }

    pub fn all_rows(&self) -> usize {
        match self.length {
            0 | 1 => 1,
            length => (length - 2) / self.points + 1,
        }
    }

    /// The rows that may be drawn.
    pub fn rows(&self) -> usize {
        self.all_rows().min(MOST_ROWS)
    }

    /// The first and the last point that stand in no row.
    pub fn left_out(&self) -> Option<(usize, usize)> {
        let first = MOST_ROWS * self.points + 1;
        (self.all_rows() > MOST_ROWS).then(|| (first, self.length - 1))
    }

    pub fn is_left_out(&self, point: usize) -> bool {
        self.left_out()
            .is_some_and(|(first, last)| (first..=last).contains(&point))
    }

    /// The number of the row's last point.
    pub fn last_point(&self, row: usize) -> usize {
        (self.points * (row + 1)).min(self.length.saturating_sub(1))
    }

    /// Where a point of a row stands, from the number of the row's first.
    pub fn place(&self, index: usize) -> f64 {
        (10 * PLOT_WIDTH * index / self.points) as f64 / 10.0
    }

    /// A channel's values in all rows of the range.
    pub fn values<'a>(&self, channel: &'a Channel) -> &'a [i64] {
        let values = channel.values.as_deref().unwrap_or(&[]);
        &values[..values.len().min(MOST_ROWS * self.points + 1)]
    }

    /// A channel's values from this row's first point to the next one's.
    pub fn values_in_row<'a>(&self, channel: &'a Channel, row: usize) -> &'a [i64] {
        let values = channel.values.as_deref().unwrap_or(&[]);
        let first = (self.points * row).min(values.len());
        let end = (self.points * (row + 1) + 1).min(values.len());
        &values[first..end]
    }

    /// The points of a channel's line in a row; it has none where it would have one point, but a channel
    /// of one point has it twice.
    pub fn line(&self, channel: &Channel, row: usize) -> Vec<Point> {
        match self.values_in_row(channel, row) {
            [] => Vec::new(),
            &[value] if channel.length() == 1 => vec![(0.0, value); 2],
            [_] => Vec::new(),
            values if self.points > MOST_SINGLE_POINTS => self.columns(values),
            values => self.single_points(values),
        }
    }

    fn single_points(&self, values: &[i64]) -> Vec<Point> {
        let point = |(index, &value): (usize, &i64)| (self.place(index), value);
        values.iter().enumerate().map(point).collect()
    }

    // The lowest and then the highest value of each column, or the one that is both.
    fn columns(&self, values: &[i64]) -> Vec<Point> {
        let mut points = Vec::new();
        let mut start = 0;
        for column in 0..=PLOT_WIDTH {
            let next = ((column + 1) * self.points).div_ceil(PLOT_WIDTH);
            let inside = &values[start..next.min(values.len())];
            start = next.min(values.len());
            let bounds = inside.iter().min().zip(inside.iter().max());
            let Some((&least, &most)) = bounds else {
                break;
            };
            points.push((column as f64, least));
            if most > least {
                points.push((column as f64, most));
            }
        }
        points
    }
}
