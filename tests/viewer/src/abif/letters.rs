//! The checks of the called letters, of the bars of their qualities, and of the marks where there is none.

use super::called::Base;
use super::check::Row;
use super::contents::{Contents, MOST_LETTERS};
use crate::findings::Findings;
use crate::picture::{grouped, number, of_class};
use crate::xml::Element;

/// How high a bar is at the top of its scale, where all bars stand, and what is cut off of a height.
const TOP_BAR: f64 = 36.0;
const BARS_FOOT: f64 = -32.0;
const BAR_ROUNDING: f64 = 0.100_001;
/// How far the middle of a bar may be from its point.
const MIDDLE_ROUNDING: f64 = 0.051;

/// Checks that a letter is there just where all its traces are, and its quality with it.
pub fn check_letters(findings: &mut Findings, root: &Element, rows: &[Row], contents: &Contents) {
    let letters = of_class(root, "letter").len();
    let in_rows: usize = rows
        .iter()
        .map(|row| of_class(row.element, "letter").len())
        .sum();
    findings.check(letters == in_rows, || {
        format!("{letters} letters, {in_rows} in rows")
    });
    for row in rows {
        let bases = contents.bases.iter();
        let mut expected: Vec<&Base> = bases.filter(|base| base.row == row.index).collect();
        check_crowded(findings, row, expected.len());
        if expected.len() > MOST_LETTERS {
            expected.clear();
        }
        let row = Lettered { row, contents };
        row.check_letters(findings, &expected);
        row.check_bars(findings, &expected);
        row.check_marks(findings, &expected);
    }
}

// Letters that are too close to be drawn are counted.
fn check_crowded(findings: &mut Findings, row: &Row, count: usize) {
    let crowded = of_class(row.element, "crowded");
    let found: Vec<Option<usize>> = crowded
        .iter()
        .map(|text| number(text, "data-count"))
        .collect();
    let expected: Vec<Option<usize>> = (count > MOST_LETTERS)
        .then_some(Some(count))
        .into_iter()
        .collect();
    let is_told = crowded
        .iter()
        .all(|text| text.words.contains(&grouped(count as i64)));
    findings.check(found == expected && is_told, || {
        format!("row {}: {crowded:?} for {count} letters", row.index)
    });
}

struct Lettered<'a> {
    row: &'a Row<'a>,
    contents: &'a Contents,
}

impl Lettered<'_> {
    // Where the base's point lies.
    fn place(&self, base: &Base) -> f64 {
        let range = &self.contents.range;
        range.place(base.place - range.points * self.row.index)
    }

    fn stands_over(&self, element: &Element, base: &Base) -> bool {
        number::<f64>(element, "x").is_some_and(|x| (x - self.place(base)).abs() <= MIDDLE_ROUNDING)
    }

    fn check_letters(&self, findings: &mut Findings, expected: &[&Base]) {
        let letters = of_class(self.row.element, "letter");
        let fits = letters.len() == expected.len()
            && letters.iter().zip(expected).all(|(letter, base)| {
                letter.name == "text"
                    && self.stands_over(letter, base)
                    && number(letter, "data-base") == Some(base.base)
                    && number(letter, "data-at") == Some(base.place)
                    && shows(&letter.words, base.letter)
            });
        findings.check(fits, || {
            format!(
                "row {}: letters {letters:?} for {expected:?}",
                self.row.index
            )
        });
    }

    // The bars stand on one line, each as high as its quality, to one scale.
    fn check_bars(&self, findings: &mut Findings, expected: &[&Base]) {
        let bars = of_class(self.row.element, "quality");
        let judged = expected.iter().filter(|base| base.quality > Some(0));
        let judged: Vec<&&Base> = judged.collect();
        let middle =
            |bar: &Element| Some(number::<f64>(bar, "x")? + number::<f64>(bar, "width")? / 2.0);
        let fits = bars.len() == judged.len()
            && bars.iter().zip(&judged).all(|(bar, base)| {
                let distance = middle(bar).map(|middle| (middle - self.place(base)).abs());
                bar.name == "rect"
                    && distance.is_some_and(|distance| distance <= MIDDLE_ROUNDING)
                    && number(bar, "data-base") == Some(base.base)
                    && number(bar, "data-value") == base.quality
                    && stands_for(bar, base.quality, self.contents.top_quality)
            });
        findings.check(fits, || {
            format!("row {}: bars {bars:?} for {judged:?}", self.row.index)
        });
    }

    // A quality that a bar cannot show has a mark, and cannot be taken for one that is not there.
    fn check_marks(&self, findings: &mut Findings, expected: &[&Base]) {
        let marks = of_class(self.row.element, "no-quality");
        let without = |base: &&&Base| base.quality.is_some_and(|quality| quality <= 0);
        let without: Vec<&&Base> = expected.iter().filter(without).collect();
        let fits = marks.len() == without.len()
            && marks.iter().zip(&without).all(|(mark, base)| {
                let sign = if base.quality == Some(0) { "0" } else { "−" };
                mark.name == "text"
                    && self.stands_over(mark, base)
                    && number(mark, "data-base") == Some(base.base)
                    && number(mark, "data-value") == base.quality
                    && mark.words == sign
            });
        findings.check(fits, || {
            format!("row {}: marks {marks:?} for {without:?}", self.row.index)
        });
    }
}

/// Whether the text shows this letter; what is no printable one is shown as a full stop.
pub fn shows(text: &str, letter: i64) -> bool {
    let printable = u8::try_from(letter).ok().filter(u8::is_ascii_graphic);
    text == printable.map_or('.', char::from).to_string()
}

fn stands_for(bar: &Element, quality: Option<i64>, top: i64) -> bool {
    let expected = quality.map(|quality| TOP_BAR * quality as f64 / top as f64);
    let height = number::<f64>(bar, "height");
    let foot = number::<f64>(bar, "y")
        .zip(height)
        .map(|(y, height)| y + height);
    let is_as_high = height
        .zip(expected)
        .is_some_and(|(height, expected)| (height - expected).abs() <= BAR_ROUNDING);
    is_as_high && foot.is_some_and(|foot| (foot - BARS_FOOT).abs() < 1e-9)
}
