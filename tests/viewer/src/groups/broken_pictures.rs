//! Pictures that say something wrong, which the checks must catch.

use super::colours::check_looks;
use super::pages::check_pages;
use crate::abif::files::{run, shorts, Fragments};
use crate::drawing::{check_picture, draw, read, Input, Paper, Wish, PLAIN};
use crate::findings::Findings;
use crate::program::Program;
use crate::scratch::Scratch;
use compare::abif::generate::{Content, Order};
use compare::abif::reader::Tag;
use compare::report::Group;

/// A way to break a picture; None where there is nothing to break.
type Break = fn(&str) -> Option<String>;

const ABIF: [(&str, Break); 22] = [
    ("a line for a refused channel", |text| {
        let line = "<polyline class=\"trace\" data-part=\"DATA 12\" points=\"0,1 2,1\"/>";
        before(text, "<polyline", line)
    }),
    ("a line without a class", |text| {
        before(text, "<polyline", "<polyline points=\"0,1 2,1\"/>")
    }),
    ("a line behind the rows", |text| {
        let line = "<polyline class=\"trace\" data-part=\"DATA 9\" points=\"0,1 2,1\"/>";
        before(text, "</svg>", line)
    }),
    ("a flat line", |text| flat_line(text)),
    ("a line of one point less", |text| shorter_line(text)),
    ("a point that is moved", |text| {
        replaced(text, "points=\"0,", "points=\"1,")
    }),
    ("two channels changed about", |text| {
        let [nine, ten] = [9, 10].map(|number| format!("\"trace\" data-part=\"DATA {number}\""));
        let moved = replaced(text, &nine, "\"other\"")?;
        let moved = replaced(&moved, &ten, &nine)?;
        replaced(&moved, "\"other\"", &ten)
    }),
    ("no hatched box", |text| without_boxes(text, "DATA 12")),
    ("a box with another number", |text| {
        let from = "data-part=\"DATA 12\" data-refusal=\"1\"";
        replaced(text, from, "data-part=\"DATA 12\" data-refusal=\"2\"")
    }),
    ("a box for a channel that is there", |text| {
        let hatched = "<rect class=\"refused\" data-part=\"DATA 9\" data-refusal=\"1\" \
                       width=\"9\" height=\"9\" fill=\"url(#hatch)\"/>";
        before(text, "</svg>", hatched)
    }),
    ("a letter over a refused trace", |text| {
        let letter = "<text class=\"letter\" data-base=\"1\" data-at=\"19\">C</text>";
        before(text, "<text class=\"letter\"", letter)
    }),
    ("another letter", |text| {
        let from = text.find("<text class=\"letter\"")?;
        let end = from + text[from..].find("</text>")?;
        Some([&text[..end - 1], "X", &text[end..]].concat())
    }),
    ("a letter at another place", |text| {
        replaced(text, "data-at=\"", "data-at=\"1")
    }),
    ("a quality of another value", |text| {
        replaced(text, "data-value=\"", "data-value=\"1")
    }),
    ("no word in the rows that the file is refused", |text| {
        Some(text.replace("class=\"file-refused", "class=\"other")).filter(|it| it != text)
    }),
    ("a box with other words", |text| {
        replaced(text, "missing: the file ends too soon", "of another kind")
    }),
    ("a channel's line that does not say it", |text| {
        replaced(text, " points, file refused", " points")
    }),
    ("another number of hidden letters", |text| {
        replaced(text, "at their place: ", "at their place: 1")
    }),
    ("another sample", |text| {
        replaced(text, "; sample ", "; sample x")
    }),
    ("another scale", |text| {
        replaced(text, "data-top=\"", "data-top=\"1")
    }),
    ("a path in a row", |text| {
        before(
            text,
            "<polyline",
            "<path class=\"trace\" data-part=\"DATA 12\" d=\"M0 1h9\"/>",
        )
    }),
    ("a path without a class in a row", |text| {
        before(text, "<polyline", "<path d=\"M0 1h9\"/>")
    }),
];

const ALL: [(&str, Break); 9] = [
    ("another number in the banner", |text| {
        replaced(text, ">refused 1 at", ">refused 2 at")
    }),
    ("another headline", |text| {
        replaced(text, "REFUSED: NOT COMPLETE", "REFUSED: DAMAGED")
    }),
    ("another meaning", |text| {
        replaced_behind(text, "class=\"meaning\"", "This file", "That file")
    }),
    ("another name", |text| {
        replaced_behind(text, "class=\"title\"", ">cut-", ">")
    }),
    ("no banner", |text| {
        replaced(text, "class=\"verdict\"", "class=\"other\"")
    }),
    ("another entry", |text| {
        replaced(text, "at entry ", "at entry 1")
    }),
    ("the root calls it whole", |text| {
        replaced(
            text,
            "data-refusal=\"1\" data-entry=\"",
            "data-refusal=\"0\" data-entry=\"",
        )
    }),
    ("a box that is not hatched", |text| {
        replaced(text, "fill=\"url(#hatch)\"", "fill=\"none\"")
    }),
    ("an ampersand", |text| replaced(text, "</svg>", "&</svg>")),
];

/// What readers cannot see or tell apart.
const LOOKS: [(&str, Break); 6] = [
    ("a text over another one", |text| {
        before(
            text,
            "<text class=\"facts\"",
            "<text x=\"24\" y=\"34\">over</text>",
        )
    }),
    ("a text that is too light", |text| {
        before(
            text,
            "<text class=\"facts\"",
            "<text fill=\"#888\">light</text>",
        )
    }),
    ("a black text in the banner", |text| {
        replaced_behind(text, ".entry{", "fill:#fff", "fill:#000")
    }),
    ("a letter of another colour", |text| {
        replaced_behind(text, "class=\"letter\"", "fill=\"#", "fill=\"#1")
    }),
    ("two channels that look the same", |text| {
        let from = text.find("data-part=\"DATA 9\" stroke=\"")?;
        let look = text[from..]
            .split_once("DATA 9\"")?
            .1
            .split_once(" points")?
            .0;
        let start = text.find("data-part=\"DATA 10\" stroke=\"")?;
        let other = text[start..]
            .split_once("DATA 10\"")?
            .1
            .split_once(" points")?
            .0;
        Some(text.replace(other, look))
    }),
    ("a legend that looks as another channel", |text| {
        let from = text.find("data-part=\"DATA 9\" stroke=\"")?;
        let dashes = text[from..].split_once(" stroke-dasharray=\"")?.1;
        let dashes = dashes.split_once('"')?.0;
        replaced(
            text,
            &format!("stroke-dasharray=\"{dashes}\""),
            "stroke-dasharray=\"9 9\"",
        )
    }),
];

/// A run whose channels end one after the other, and letters whose qualities are nought and less.
const ENDS: [(&str, Break); 7] = [
    ("no box behind a channel's end", |text| {
        without(text, "<rect class=\"ended\"", "/>")
    }),
    ("a box behind another point", |text| {
        replaced_behind(text, "class=\"ended\"", "data-count=\"", "data-count=\"1")
    }),
    ("no words at a channel's end", |text| {
        without(text, "<text class=\"ended-words\"", "</text>")
    }),
    ("no mark of a quality of nought", |text| {
        without(text, "<text class=\"no-quality\"", "</text>")
    }),
    ("a bar for a quality of nought", |text| {
        let mark = "<text class=\"no-quality\"";
        let bar = "<rect class=\"quality\" data-base=\"3\" data-value=\"0\" x=\"15\" y=\"-32\" \
                   width=\"6\" height=\"0\"/>";
        before(text, mark, bar)
    }),
    ("a row that starts elsewhere", |text| {
        replaced(text, "data-first=\"500\"", "data-first=\"501\"")
    }),
    ("a row of other points", |text| {
        replaced(text, "data-points=\"500\"", "data-points=\"600\"")
    }),
];

/// Fragments whose fifth channel is refused.
const FRAGMENTS: [(&str, Break); 5] = [
    ("no box for DATA 105", |text| {
        without_boxes(text, "DATA 105")
    }),
    ("nothing told of the front", |text| {
        without(text, "<text class=\"front\"", "</text>")
    }),
    ("a front that is higher than told", |text| {
        replaced(text, "data-highest=\"", "data-highest=\"1")
    }),
    ("a shorter front", |text| {
        replaced(text, "data-last=\"999\"", "data-last=\"499\"")
    }),
    ("nothing told of the scales", |text| {
        replaced(text, "scale of its own", "scale")
    }),
];

/// Rows of columns of several points.
const COLUMNS: [(&str, Break); 2] = [
    ("a lost peak", |text| without_peak(text)),
    ("a line of one point less", |text| shorter_line(text)),
];

const PAGES: [(&str, Break); 7] = [
    ("a page without the verdict", |text| {
        last_replaced(text, "class=\"verdict", "class=\"other")
    }),
    ("a page without the name", |text| {
        last_replaced(text, "class=\"title\"", "class=\"other\"")
    }),
    ("a page without its number", |text| {
        last_replaced(text, "class=\"page-number", "class=\"other")
    }),
    ("a page of another number", |text| {
        last_replaced(text, "data-page=\"", "data-page=\"1")
    }),
    ("a row below the page", |text| {
        let from = text.rfind("<g class=\"row\"")?;
        let rest = replaced(&text[from..], "translate(92,", "translate(92,9")?;
        Some([&text[..from], &rest].concat())
    }),
    ("no box in the last row", |text| {
        let from = text.rfind("<rect class=\"refused\"")?;
        let rest = without(&text[from..], "<rect class=\"refused\"", "/>")?;
        Some([&text[..from], &rest].concat())
    }),
    ("pages for other paper", |text| {
        replaced(text, "size:A4", "size:Letter")
    }),
];

const SFF: [(&str, Break); 6] = [
    ("a bar of another height", |text| {
        replaced_behind(text, "class=\"flow\"", " height=\"", " height=\"1")
    }),
    ("a flow of another value", |text| {
        replaced(text, "data-value=\"", "data-value=\"1")
    }),
    ("a base at another flow", |text| {
        replaced_behind(text, "class=\"letter", "data-flow=\"", "data-flow=\"1")
    }),
    ("a clipped base that looks kept", |text| {
        replaced(text, "class=\"letter clipped\"", "class=\"letter\"")
    }),
    ("no clipped end", |text| {
        replaced(text, "class=\"clipped\"", "class=\"other\"")
    }),
    ("another flow letter", |text| {
        replaced(text, "data-letter=\"T\"", "data-letter=\"A\"")
    }),
];

const GTC: [(&str, Break); 4] = [
    ("a mark at another place", |text| {
        replaced_behind(text, "<path class=\"snps\"", " d=\"M", " d=\"M9")
    }),
    ("marks for another genotype", |text| {
        replaced(text, "data-genotype=\"unread\"", "data-genotype=\"AA\"")
    }),
    ("another count", |text| {
        replaced(text, "data-count=\"", "data-count=\"1")
    }),
    ("no box for the SNPs", |text| without_boxes(text, "SNPs")),
];

/// A whole file with 25 bytes behind its end.
const TAILS: [(&str, Break); 5] = [
    ("nothing told of the tail", |text| {
        replaced(text, "class=\"tail\"", "class=\"other\"")
    }),
    ("a tail of another length", |text| {
        replaced(text, ">Whole, 25 bytes", ">Whole, 26 bytes")
    }),
    ("no box for the tail", |text| {
        without(text, "<rect class=\"tail-strip\"", "/>")
    }),
    ("a box for the tail that looks as the file's", |text| {
        replaced_behind(text, "\"tail-strip\"", " stroke-dasharray=\"4 3\"", "")
    }),
    ("a box for the tail that is too wide", |text| {
        replaced_behind(text, "\"tail-strip\"", " width=\"", " width=\"1")
    }),
];

pub fn broken_pictures(group: &mut Group) {
    let cut_run = Subject::sample("cut-run.ab1");
    cut_run.break_all(group, ABIF.iter().chain(&ALL).chain(&LOOKS));
    cut_run.on(Paper::A4).break_all(group, PAGES.iter());
    Subject::sample("run.sff").break_all(group, SFF.iter());
    Subject::sample("cut-run.gtc").break_all(group, GTC.iter().chain(&ALL));
    Subject::sample("bytes-behind-the-end.ab1").break_all(group, TAILS.iter());
    let ends = run([700, 400, 90, 900], Order::DirectoryFirst);
    Subject::new("ends.ab1", ends).break_all(group, ENDS.iter());
    Subject::new("fragments.fsa", fragments()).break_all(group, FRAGMENTS.iter());
    let mut columns = Subject::new("columns.ab1", run([3100; 4], Order::DirectoryLast));
    columns.wish = Wish::points(2000);
    columns.break_all(group, COLUMNS.iter());
}

// The fifth channel is of numbers that are not whole.
fn fragments() -> Vec<u8> {
    let mut run = Fragments::new(4, true, 1100, 2000);
    let tag = Tag::new(b"DATA", 105);
    run.items.push((tag, Content::listed(7, vec![0; 400])));
    run.items.push((Tag::new(b"DyeW", 5), shorts([655])));
    run.bytes(Order::DirectoryFirst)
}

/// A file whose picture is broken.
struct Subject {
    name: &'static str,
    bytes: Vec<u8>,
    wish: Wish,
}

impl Subject {
    fn new(name: &'static str, bytes: Vec<u8>) -> Subject {
        Subject {
            name,
            bytes,
            wish: PLAIN,
        }
    }

    fn sample(name: &'static str) -> Subject {
        Subject::new(name, Input::sample(name).bytes)
    }

    fn on(&self, paper: Paper) -> Subject {
        Subject {
            wish: Wish::pages(paper),
            bytes: self.bytes.clone(),
            ..*self
        }
    }

    fn break_all<'a>(
        &self,
        group: &mut Group,
        breaks: impl Iterator<Item = &'a (&'static str, Break)>,
    ) {
        let (name, bytes) = (self.name, &self.bytes);
        let sound = self.sound();
        let faults = self.faults(&sound);
        group.check(faults.is_empty(), bytes, || format!("{name}: {faults:?}"));
        for (what, change) in breaks {
            group.input();
            let broken = change(&sound);
            group.check(broken.is_some(), bytes, || {
                format!("{name} has nothing for: {what}")
            });
            let is_caught = broken.is_none_or(|broken| !self.faults(&broken).is_empty());
            group.check(is_caught, bytes, || format!("{name}: not caught: {what}"));
        }
    }

    // The picture as it is drawn.
    fn sound(&self) -> String {
        let scratch = Scratch::new();
        let file = scratch.write(self.name, &self.bytes);
        let picture = scratch.path(format!("picture.{}", self.wish.ending()));
        let drawn = draw(&Program::plain(), &file, &picture, self.wish);
        String::from_utf8_lossy(&drawn.picture.unwrap_or_default()).into_owned()
    }

    fn faults(&self, text: &str) -> Vec<String> {
        let mut findings = Findings::default();
        let file = self.name.as_ref();
        check_picture(&mut findings, text.as_bytes(), file, &self.bytes, self.wish);
        let Ok(root) = read(text.as_bytes(), self.wish) else {
            return findings.faults().to_vec();
        };
        check_looks(&mut findings, &root);
        if let Some(paper) = self.wish.paper {
            check_pages(&mut findings, &root, paper);
        }
        findings.faults().to_vec()
    }
}

fn replaced(text: &str, from: &str, to: &str) -> Option<String> {
    text.contains(from).then(|| text.replacen(from, to, 1))
}

// The picture with the first of these behind the first mark replaced.
fn replaced_behind(text: &str, mark: &str, from: &str, to: &str) -> Option<String> {
    let place = text.find(mark)?;
    let rest = replaced(&text[place..], from, to)?;
    Some([&text[..place], &rest].concat())
}

fn last_replaced(text: &str, from: &str, to: &str) -> Option<String> {
    let place = text.rfind(from)?;
    Some([&text[..place], to, &text[place + from.len()..]].concat())
}

// The picture without the first element that begins so, up to its end.
fn without(text: &str, start: &str, end: &str) -> Option<String> {
    let place = text.find(start)?;
    let length = text[place..].find(end)? + end.len();
    Some([&text[..place], &text[place + length..]].concat())
}

// The new element before the first of these.
fn before(text: &str, mark: &str, element: &str) -> Option<String> {
    replaced(text, mark, &[element, mark].concat())
}

// The place of the first line's points.
fn line_points(text: &str) -> Option<(usize, usize)> {
    let start = text.find(" points=\"")? + " points=\"".len();
    Some((start, start + text[start..].find('"')?))
}

fn flat_line(text: &str) -> Option<String> {
    let (start, end) = line_points(text)?;
    let count = text[start..end].split(' ').count();
    let points: Vec<String> = (0..count)
        .map(|index| format!("{},100.0", 2 * index))
        .collect();
    Some([&text[..start], &points.join(" "), &text[end..]].concat())
}

fn shorter_line(text: &str) -> Option<String> {
    let (start, end) = line_points(text)?;
    let kept = start + text[start..end].trim_end().rfind(' ')?;
    Some([&text[..kept], &text[end..]].concat())
}

// The first line without its highest point.
fn without_peak(text: &str) -> Option<String> {
    let (start, end) = line_points(text)?;
    let height = |point: &&str| {
        let y = point.split_once(',').and_then(|(_, y)| y.parse().ok());
        y.unwrap_or(f64::INFINITY)
    };
    let points: Vec<&str> = text[start..end].split_whitespace().collect();
    let highest = points.iter().map(height).fold(f64::INFINITY, f64::min);
    let mut kept = points;
    kept.retain(|point| height(point) > highest);
    Some([&text[..start], &kept.join(" "), &text[end..]].concat())
}

// The picture without the boxes of this part.
fn without_boxes(text: &str, part: &str) -> Option<String> {
    let mut left = text.to_string();
    let mark = format!("data-part=\"{part}\"");
    let mut from = 0;
    while let Some(found) = left[from..].find("<rect class=\"refused\"") {
        let start = from + found;
        let end = start + left[start..].find("/>")? + 2;
        if left[start..end].contains(&mark) {
            left.replace_range(start..end, "");
        } else {
            from = end;
        }
    }
    Some(left).filter(|left| left != text)
}
