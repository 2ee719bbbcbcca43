//! A picture that was read: its elements by their classes, and what all pictures have in common.

use crate::banner;
use crate::findings::Findings;
use crate::sentences;
use crate::verdict::{self, Format};
use crate::xml::Element;
use compare::refusal::Refusal;
use compare::{abif, sff};
use std::collections::BTreeSet;

const HATCHING: &str = "url(#hatch)";
/// What a letter in a box takes at most on the average, in pixels.
const LETTER_WIDTH: f64 = 7.0;

/// The parts that are hatched, with their refusals' numbers.
pub type Parts = BTreeSet<(String, u64)>;

/// All elements, each before those inside it.
pub fn all(root: &Element) -> Vec<&Element> {
    let mut found = vec![root];
    for child in &root.children {
        found.extend(all(child));
    }
    found
}

/// All elements of this class, whatever other classes they have.
pub fn of_class<'a>(root: &'a Element, class: &str) -> Vec<&'a Element> {
    let mut found = all(root);
    found.retain(|element| has_class(element, class));
    found
}

pub fn has_class(element: &Element, class: &str) -> bool {
    let classes = element.attribute("class").unwrap_or("");
    classes.split(' ').any(|other| other == class)
}

/// The pages of a picture; one that has none is a page itself.
pub fn pages(root: &Element) -> Vec<&Element> {
    match root.name.as_str() {
        "html" => of_class(root, "page"),
        _ => vec![root],
    }
}

/// The attribute as a number, where it is one.
pub fn number<T: std::str::FromStr>(element: &Element, attribute: &str) -> Option<T> {
    element.attribute(attribute)?.parse().ok()
}

/// The number with commas between its thousands.
pub fn grouped(number: i64) -> String {
    let digits = number.unsigned_abs().to_string();
    let mut grouped = String::new();
    for (index, digit) in digits.chars().enumerate() {
        if index > 0 && (digits.len() - index) % 3 == 0 {
            grouped.push(',');
        }
        grouped.push(digit);
    }
    let sign = if number < 0 { "-" } else { "" };
    [sign, &grouped].concat()
}

/// Whether a text is the expected one, or one that a mark stands in for a piece of.
pub fn is_or_shortened(found: &str, expected: &str) -> bool {
    let is_shortened = |(before, behind)| {
        let kept = str::len(before) + str::len(behind);
        kept < expected.len() && expected.starts_with(before) && expected.ends_with(behind)
    };
    found == expected || found.split_once('…').is_some_and(is_shortened)
}

pub fn part(name: impl ToString, refusal: Refusal) -> (String, u64) {
    (name.to_string(), refusal as u64)
}

/// The parts of the hatched boxes inside an element.
pub fn hatched(root: &Element) -> Parts {
    let boxes = of_class(root, "refused").into_iter();
    let name = |hatched: &Element| hatched.attribute("data-part").unwrap_or("").to_string();
    let refusal = |hatched: &Element| number(hatched, "data-refusal").unwrap_or(0);
    boxes
        .map(|hatched| (name(hatched), refusal(hatched)))
        .collect()
}

/// What a box says of its part: what the part is called, and why it is refused.
pub struct Said {
    pub label: String,
    pub words: &'static str,
}

impl Said {
    pub fn of(label: String, refusal: u64) -> Said {
        let words = sentences::words(refusal);
        Said { label, words }
    }
}

/// The checks of the root, the banner and the hatched boxes; `said` tells what a part's boxes say of it
/// and its refusal.
pub fn check_frame(
    findings: &mut Findings,
    root: &Element,
    bytes: &[u8],
    parts: &Parts,
    said: impl Fn(&str, u64) -> Said,
) {
    check_root(findings, root, bytes);
    banner::check(findings, root, bytes);
    let found = hatched(root);
    findings.check(found == *parts, || {
        format!("hatched are {found:?}, refused are {parts:?}")
    });
    check_hatching(findings, root, !parts.is_empty());
    check_numbers(findings, root);
    let is_lost = nothing_is_found(bytes);
    check_words(findings, root, |part, refusal| {
        let mut said = said(part, refusal);
        if is_lost {
            said.words = "cannot be found";
        }
        said
    });
}

// Whether the file tells not even where its parts would stand.
fn nothing_is_found(bytes: &[u8]) -> bool {
    match Format::of(bytes) {
        Format::Abif => abif::reader::open(bytes).is_err(),
        Format::Sff => sff::reader::header(bytes).is_err(),
        Format::Gtc => verdict::refused(bytes).is_some_and(|refused| refused.entry == 0),
        Format::Unknown => true,
    }
}

// Each box has its refusal in words, which do not run out of it.
fn check_words(findings: &mut Findings, root: &Element, said: impl Fn(&str, u64) -> Said) {
    let boxes = of_class(root, "refused");
    let texts = of_class(root, "box");
    findings.check(boxes.len() == texts.len(), || {
        format!("{} boxes with words in {}", boxes.len(), texts.len())
    });
    for (hatched, text) in boxes.iter().zip(texts) {
        let refusal: u64 = number(hatched, "data-refusal").unwrap_or(0);
        let part = hatched.attribute("data-part").unwrap_or("");
        let Said { label, words } = said(part, refusal);
        let expected = format!("{label}: {words} (refused {refusal})");
        findings.check(text.words == expected, || {
            format!("{part} says {:?} and not {expected:?}", text.words)
        });
        check_room(findings, hatched, text);
    }
}

fn check_room(findings: &mut Findings, hatched: &Element, text: &Element) {
    let end = |element: &Element, width: f64| Some(number::<f64>(element, "x")? + width);
    let width = number(hatched, "width").unwrap_or(0.0);
    let words = text.words.chars().count() as f64 * LETTER_WIDTH;
    let ends = end(text, words).zip(end(hatched, width));
    let fits = ends.is_some_and(|(text, hatched)| text <= hatched);
    findings.check(fits && is_beside(text, hatched), || {
        format!("{:?} in {width} pixels", text.words)
    });
}

/// Whether the text's foot stands between a box's top and its foot.
pub fn is_beside(text: &Element, hatched: &Element) -> bool {
    let size = |name| number::<f64>(hatched, name).unwrap_or(f64::NAN);
    let foot = number::<f64>(text, "y").unwrap_or(f64::NAN);
    (size("y")..=size("y") + size("height")).contains(&foot)
}

fn check_root(findings: &mut Findings, root: &Element, bytes: &[u8]) {
    let namespace = root.attribute("xmlns").unwrap_or("");
    let is_known = matches!(
        (root.name.as_str(), namespace),
        ("svg", "http://www.w3.org/2000/svg") | ("html", "http://www.w3.org/1999/xhtml")
    );
    findings.check(is_known, || {
        format!("the root is {} of {namespace:?}", root.name)
    });
    let format = Format::of(bytes);
    let refused = verdict::refused(bytes);
    let numbers = refused.map_or((0, 0), |it| (it.refusal as u64, it.entry as u64));
    let numbers = (format != Format::Unknown).then_some(numbers);
    let expected = [
        Some(format.name().to_string()),
        numbers.map(|(refusal, _)| refusal.to_string()),
        numbers.map(|(_, entry)| entry.to_string()),
        Some("picture".to_string()),
    ];
    let names = ["data-format", "data-refusal", "data-entry", "data-jtview"];
    let found = names.map(|name| root.attribute(name).map(str::to_string));
    findings.check(found == expected, || {
        format!("the root says {found:?} and not {expected:?}")
    });
}

// Boxes of a size, and nothing else, are hatched, by a pattern that is there.
fn check_hatching(findings: &mut Findings, root: &Element, is_used: bool) {
    for element in all(root) {
        let mut values = element.attributes.iter().map(|(_, value)| value.as_str());
        let is_hatched = values.any(|value| value.contains("#hatch"));
        let is_box = has_class(element, "refused") || has_class(element, "ended");
        if !is_hatched && !is_box {
            continue;
        }
        let size = |name| number(element, name).unwrap_or(0.0);
        let is_sound = is_box
            && element.name == "rect"
            && element.attribute("fill") == Some(HATCHING)
            && size("width") > 0.0
            && size("height") > 0.0;
        findings.check(is_sound, || format!("the hatched box {element:?}"));
    }
    let mut patterns = all(root);
    patterns.retain(|element| element.attribute("id") == Some("hatch"));
    let is_pattern = matches!(patterns[..], [pattern] if pattern.name == "pattern");
    findings.check(is_pattern || !is_used, || {
        "no pattern for the boxes".to_string()
    });
}

// A text that is a number has commas between its thousands.
fn check_numbers(findings: &mut Findings, root: &Element) {
    for text in all(root).into_iter().filter(|it| it.name == "text") {
        let is_number = !text.words.starts_with('+');
        let number = text.words.replace(',', "").parse().ok();
        let number = number.filter(|_| is_number).map(grouped);
        findings.check(number.is_none_or(|number| text.words == number), || {
            format!("the number {:?}", text.words)
        });
    }
}

/// The checks of the elements that say of what is drawn that the file is refused.
pub fn check_mark(findings: &mut Findings, root: &Element, is_drawn: bool, is_refused: bool) {
    let marks = of_class(root, "file-refused");
    let is_marked = marks.iter().any(|mark| mark.text.trim() == "file refused");
    let fits = if is_refused {
        is_marked || !is_drawn
    } else {
        marks.is_empty()
    };
    findings.check(fits, || {
        format!(
            "{} marks; drawn {is_drawn}, refused {is_refused}",
            marks.len()
        )
    });
}

/// The check of the text that tells from which to which number nothing is drawn.
pub fn check_left_out(findings: &mut Findings, root: &Element, expected: Option<(usize, usize)>) {
    let texts = of_class(root, "left-out").into_iter();
    let found: Vec<Option<(usize, usize)>> = texts
        .map(|text| number(text, "data-from").zip(number(text, "data-to")))
        .collect();
    let expected: Vec<_> = expected.map(Some).into_iter().collect();
    findings.check(found == expected, || {
        format!("left out are {found:?} and not {expected:?}")
    });
    for text in of_class(root, "left-out") {
        let names = |number| text.words.contains(&grouped(number));
        let numbers = number(text, "data-from").zip(number(text, "data-to"));
        let is_told = numbers.is_some_and(|(from, to)| names(from) && names(to));
        findings.check(text.name == "text" && is_told, || {
            format!("{text:?} does not tell what is left out")
        });
    }
}
