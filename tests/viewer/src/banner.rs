//! The checks of what a picture says of its file: its name, the verdict, and what that means.

use crate::findings::Findings;
use crate::picture::{grouped, number, of_class, pages};
use crate::sentences;
use crate::verdict::{self, Format};
use crate::words::shown;
use crate::xml::Element;
use compare::judged::Judged;
use compare::refusal::Refused;
use compare::{abif, gtc};

/// What a box of the strip takes at least, in pixels.
const NARROWEST: f64 = 4.0;

/// Checks the texts of the banner and of every page's head.
pub fn check(findings: &mut Findings, root: &Element, bytes: &[u8]) {
    for page in pages(root) {
        check_verdict(findings, page, bytes);
    }
    check_meaning(findings, root, bytes);
    check_strip(findings, root, bytes);
    check_entry(findings, root, bytes);
}

fn texts(root: &Element, class: &str) -> Vec<String> {
    let found = of_class(root, class).into_iter();
    found.map(|element| element.words.clone()).collect()
}

/// What the verdict says, or nothing of a whole file.
pub fn verdict_of(bytes: &[u8]) -> Option<String> {
    let headline = sentences::explanation(bytes)?.headline?;
    let start = match Format::of(bytes) {
        Format::Unknown => "UNKNOWN",
        _ => "REFUSED",
    };
    Some(format!("{start}: {headline}"))
}

/// How the facts of a whole file begin.
pub fn facts_of(bytes: &[u8]) -> Option<String> {
    let format = Format::of(bytes);
    let extent = verdict::whole(bytes)?.extent;
    let [extent, length] = [extent, bytes.len()].map(|length| grouped(length as i64));
    Some(format!(
        "{}, whole: {extent} of {length} bytes",
        format.name()
    ))
}

// A verdict on each page, or of a whole file its facts, and never both.
fn check_verdict(findings: &mut Findings, page: &Element, bytes: &[u8]) {
    let found = texts(page, "verdict");
    let expected = Vec::from_iter(verdict_of(bytes));
    findings.check(found == expected, || {
        format!("the verdict is {found:?} and not {expected:?}")
    });
    let found = texts(page, "facts");
    let fits = match facts_of(bytes) {
        Some(facts) => matches!(&found[..], [one] if one.starts_with(&facts)),
        None => found.iter().all(|one| !one.contains("whole")),
    };
    findings.check(fits, || format!("the facts are {found:?}"));
}

// The sentences begin with a capital: those of a refused file in lines, and by itself what stands behind
// a whole file's end.
fn check_meaning(findings: &mut Findings, root: &Element, bytes: &[u8]) {
    let told = sentences::explanation(bytes);
    let is_refused = told.as_ref().is_some_and(|told| told.headline.is_some());
    let sentences = told.map_or(String::new(), |told| told.sentences);
    let (meaning, tail) = if is_refused {
        (capitalised(&sentences), Vec::new())
    } else {
        let tail = Some(capitalised(&sentences)).filter(|tail| !tail.is_empty());
        (String::new(), Vec::from_iter(tail))
    };
    let found = texts(root, "meaning").join(" ");
    findings.check(found == meaning, || {
        format!("the meaning is {found:?} and not {meaning:?}")
    });
    let found = texts(root, "tail");
    findings.check(found == tail, || {
        format!("the tail is {found:?} and not {tail:?}")
    });
}

// Where bytes stand behind the end, one box for the file and, right behind it, one for them, to scale.
fn check_strip(findings: &mut Findings, root: &Element, bytes: &[u8]) {
    let boxes = ["file-strip", "tail-strip"].map(|class| of_class(root, class));
    let judged = verdict::whole(bytes).filter(|judged| judged.tail > 0);
    let fits = match (judged, &boxes) {
        (Some(judged), [file, tail]) if file.len() == 1 && tail.len() == 1 => {
            is_to_scale(file[0], tail[0], judged).unwrap_or(false)
        }
        (Some(_), _) => false,
        (None, boxes) => boxes.iter().all(Vec::is_empty),
    };
    findings.check(fits, || {
        format!("the strip is {boxes:?}, whole is {judged:?}")
    });
}

fn is_to_scale(file: &Element, tail: &Element, judged: Judged) -> Option<bool> {
    let [start, width] = ["x", "width"].map(|name| number::<f64>(file, name));
    let [tail_start, tail_width] = ["x", "width"].map(|name| number::<f64>(tail, name));
    let (width, tail_width) = (width?, tail_width?);
    let share = judged.extent as f64 / (judged.extent + judged.tail) as f64;
    let is_behind = start? + width == tail_start?;
    let is_near = (width / (width + tail_width) - share).abs() < 0.01;
    let differ = file.attribute("stroke-dasharray") != tail.attribute("stroke-dasharray");
    Some(is_behind && is_near && width.min(tail_width) >= NARROWEST && differ)
}

fn capitalised(text: &str) -> String {
    let mut letters = text.chars();
    let first = letters.next().map(|first| first.to_ascii_uppercase());
    first.into_iter().chain(letters).collect()
}

fn check_entry(findings: &mut Findings, root: &Element, bytes: &[u8]) {
    let refused = verdict::refused(bytes);
    let found = texts(root, "entry");
    let fits = match refused {
        None => found.is_empty(),
        Some(it) => matches!(&found[..], [one] if names_entry(one, bytes, it)),
    };
    findings.check(fits, || {
        format!("the entry is {found:?}, refused is {refused:?}")
    });
}

fn names_entry(text: &str, bytes: &[u8], refused: Refused) -> bool {
    let format = Format::of(bytes);
    let place = match (refused.entry, format) {
        (0, Format::Abif) => "the header or the directory's place".to_string(),
        (0, Format::Sff) => "the header or the index".to_string(),
        (0, _) => "the header or the table".to_string(),
        (read, Format::Sff) => format!("read {}", grouped(read as i64)),
        (entry, Format::Abif) => format!("entry {entry}: {}", tag_of(bytes, entry)),
        (entry, _) => format!("entry {entry}: "),
    };
    let expected = format!("refused {} at {place}", refused.refusal as u64);
    match format {
        Format::Gtc if refused.entry > 0 => {
            let id = gtc::reader::ids(bytes)[refused.entry - 1].to_string();
            let item = text.strip_prefix(&expected);
            item.is_some_and(|item| item.contains(&id))
        }
        _ => text == expected,
    }
}

// An entry's tag, in the order of the directory.
fn tag_of(bytes: &[u8], entry: usize) -> String {
    let directory = abif::reader::open(bytes).ok();
    let found = directory.and_then(|directory| directory.entries(bytes).nth(entry - 1));
    found.map_or(String::new(), |found| {
        let name = shown(&found.tag.name.to_be_bytes());
        format!("{name} {}", found.tag.number)
    })
}
