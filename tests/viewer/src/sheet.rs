//! The checks of what a browser has printed of a picture.

use crate::abif::contents::Contents;
use crate::banner::{facts_of, verdict_of};
use crate::findings::Findings;
use crate::picture::{all, of_class, pages};
use crate::printer::{letters, Letters, Printed, Word};
use crate::verdict::Format;
use crate::xml::Element;

/// What may lie outside of a printed page, in points.
const OUTSIDE: f64 = 1.0;
/// The share of its height that a word's box has above and below its letters.
const EMPTY: f64 = 0.15;
/// The share of the smaller box that two words' boxes may have in common.
const MOST_COMMON: f64 = 0.15;

/// Checks that each page is one sheet, with all its letters on it, and that a picture of no pages is on
/// as many sheets as it takes.
pub fn check_sheets(findings: &mut Findings, root: &Element, printed: &[Printed], bytes: &[u8]) {
    check_count(findings, printed, bytes);
    for sheet in printed {
        check_inside(findings, sheet);
        check_apart(findings, sheet);
    }
    let pages = pages(root);
    if root.name == "html" {
        findings.check(printed.len() == pages.len(), || {
            format!("{} sheets for {} pages", printed.len(), pages.len())
        });
        for (index, (sheet, page)) in printed.iter().zip(&pages).enumerate() {
            let [found, expected] = [sheet.letters(), letters_of(page)];
            findings.check(found == expected, || {
                format!("sheet {}: {}", index + 1, difference(&found, &expected))
            });
            check_head(findings, sheet, page, bytes);
        }
    } else {
        let text: Vec<String> = printed.iter().map(Printed::text).collect();
        let [found, expected] = [letters(&text.join(" ")), letters_of(root)];
        let is_there = expected
            .iter()
            .all(|(letter, count)| found.get(letter).is_some_and(|found| found >= count));
        findings.check(is_there, || difference(&found, &expected));
    }
}

// The letters of all texts of a page.
fn letters_of(page: &Element) -> Letters {
    let texts = all(page).into_iter().filter(|it| it.name == "text");
    let words: Vec<&str> = texts.map(|text| text.words.as_str()).collect();
    letters(&words.join(" "))
}

fn difference(found: &Letters, expected: &Letters) -> String {
    let both = found.keys().chain(expected.keys());
    let count = |letters: &Letters, letter| letters.get(letter).copied().unwrap_or(0);
    let mut told: Vec<String> = both
        .filter(|letter| count(found, letter) != count(expected, letter))
        .map(|it| format!("{it} {} of {}", count(found, it), count(expected, it)))
        .collect();
    told.sort();
    told.dedup();
    format!("letters are lost or doubled: {}", told.join(", "))
}

// The name, the number of the page and the verdict are on every sheet.
fn check_head(findings: &mut Findings, sheet: &Printed, page: &Element, bytes: &[u8]) {
    let text = sheet.text();
    let number = |name| page.attribute(name).unwrap_or("");
    let numbered = format!("page {} of {}", number("data-page"), number("data-pages"));
    let title = of_class(page, "title");
    let title = title.first().map(|title| title.words.clone());
    let title = title.filter(|title| title.is_ascii());
    let verdict = verdict_of(bytes).or(facts_of(bytes));
    for expected in [Some(numbered), title, verdict].into_iter().flatten() {
        findings.check(text.contains(&expected), || {
            format!("no {expected:?} on a sheet with {text:?}")
        });
    }
}

fn check_inside(findings: &mut Findings, sheet: &Printed) {
    for word in &sheet.words {
        let is_inside = [0, 1].iter().all(|&axis| {
            word.least[axis] >= -OUTSIDE && word.greatest[axis] <= sheet.size[axis] + OUTSIDE
        });
        findings.check(is_inside, || format!("{word:?} on {:?}", sheet.size));
    }
}

// No two words are printed over each other.
fn check_apart(findings: &mut Findings, sheet: &Printed) {
    let words: Vec<Word> = sheet.words.iter().map(without_empty).collect();
    let mut over = Vec::new();
    for (index, one) in words.iter().enumerate() {
        for other in &words[index + 1..] {
            if common(one, other) > MOST_COMMON {
                over.push(format!("{one:?} and {other:?}"));
            }
        }
    }
    findings.check(over.is_empty(), || {
        format!("{} words over others: {}", over.len(), over.join("; "))
    });
}

// A word's box is higher than its letters; of one that is turned, wider.
fn without_empty(word: &Word) -> Word {
    let mut word = word.clone();
    let [width, height] = [0, 1].map(|axis| word.greatest[axis] - word.least[axis]);
    let is_turned = word.text.chars().count() > 1 && height > width;
    let axis = usize::from(!is_turned);
    let empty = EMPTY * [width, height][axis];
    word.least[axis] += empty;
    word.greatest[axis] -= empty;
    word
}

// The share of the smaller box that both have in common.
fn common(one: &Word, other: &Word) -> f64 {
    let area =
        |word: &Word| (word.greatest[0] - word.least[0]) * (word.greatest[1] - word.least[1]);
    let [width, height] = [0, 1].map(|axis| {
        let end = one.greatest[axis].min(other.greatest[axis]);
        (end - one.least[axis].max(other.least[axis])).max(0.0)
    });
    width * height / area(one).min(area(other)).max(f64::MIN_POSITIVE)
}

// The rows and the marks of a run, counted by what the independent reader says of it.
fn check_count(findings: &mut Findings, printed: &[Printed], bytes: &[u8]) {
    let contents = Contents::of(bytes, false, None);
    if Format::of(bytes) != Format::Abif || contents.range.length == 0 {
        return;
    }
    let rows = contents.range.rows() - contents.folded();
    let words = || printed.iter().flat_map(|sheet| &sheet.words);
    let count = |text: &str| words().filter(|word| word.text == text).count();
    findings.check(count("signal") >= rows, || {
        format!("{} rows for {rows}", count("signal"))
    });
    let called = letters_shown(&contents);
    for (letter, expected) in called {
        let found: usize = printed
            .iter()
            .filter_map(|sheet| sheet.letters().get(&letter).copied())
            .sum();
        findings.check(found >= expected, || {
            format!("{found} of {expected} called letters {letter}")
        });
    }
}

fn letters_shown(contents: &Contents) -> Letters {
    let mut shown = Letters::new();
    for base in &contents.bases {
        let letter = u8::try_from(base.letter).ok().filter(u8::is_ascii_graphic);
        *shown.entry(letter.map_or('.', char::from)).or_default() += 1;
    }
    shown
}
