//! The colours of pictures: that they can be read on their ground, and told apart by all readers.

use crate::abif::files::Fragments;
use crate::apart::check_apart;
use crate::drawing::{draw, read, Input, Paper, Wish, PLAIN};
use crate::findings::Findings;
use crate::page::placed;
use crate::picture::{all, has_class, of_class, pages};
use crate::program::Program;
use crate::scratch::Scratch;
use crate::style::{colour, contrast, light, luminance, Colour, Style, BLACK, WHITE};
use crate::xml::Element;
use compare::abif::generate::Order;
use compare::report::Group;

/// What the WCAG ask for of texts.
const LEAST_CONTRAST: f64 = 4.5;
/// How far apart two colours are, by CIE 1976, for all readers, and two greys.
const LEAST_DISTANCE: f64 = 10.0;
const LEAST_GREY_DISTANCE: f64 = 8.0;
/// A ground that lets so little through hides what is below it.
const LEAST_COVER: f64 = 0.8;
/// The light part of a text's middle lies above its foot.
const ABOVE_FOOT: f64 = 4.0;

/// What protan, deutan and tritan readers see of a light, by Machado, Oliveira and Fernandes 2009.
const READERS: [[[f64; 3]; 3]; 3] = [
    [
        [0.152_286, 1.052_583, -0.204_868],
        [0.114_503, 0.786_281, 0.099_216],
        [-0.003_882, -0.048_116, 1.051_998],
    ],
    [
        [0.367_322, 0.860_646, -0.227_968],
        [0.280_085, 0.672_501, 0.047_413],
        [-0.011_820, 0.042_940, 0.968_881],
    ],
    [
        [1.255_528, -0.076_749, -0.178_779],
        [-0.078_411, 0.930_809, 0.147_602],
        [0.004_733, 0.691_367, 0.303_900],
    ],
];

pub fn colours(group: &mut Group) {
    for input in inputs() {
        for wish in [PLAIN, Wish::raw(), Wish::pages(Paper::A4)] {
            let mut findings = Findings::default();
            check_file(&mut findings, &input, wish);
            findings.report(group, &format!("{}, {wish:?}", input.name), &input.bytes);
        }
    }
    the_four_bases(group);
}

fn inputs() -> Vec<Input> {
    let mut inputs = Input::samples();
    for (dyes, raw) in [(5, false), (16, false), (16, true)] {
        let run = Fragments::new(dyes, raw, 600, 1400);
        let name = format!("fragments of {dyes} dyes");
        inputs.push(Input::new(name, run.bytes(Order::DirectoryFirst)));
    }
    inputs.push(Input::new(
        "uneven ends",
        crate::abif::files::run([700, 400, 90, 30], Order::DirectoryFirst),
    ));
    inputs
}

fn drawn(input: &Input, wish: Wish) -> Result<Element, String> {
    let scratch = Scratch::new();
    let file = scratch.write("file", &input.bytes);
    let picture = scratch.path(format!("picture.{}", wish.ending()));
    let drawn = draw(&Program::plain(), &file, &picture, wish);
    read(&drawn.picture.unwrap_or_default(), wish)
}

fn check_file(findings: &mut Findings, input: &Input, wish: Wish) {
    match drawn(input, wish) {
        Ok(root) => check_looks(findings, &root),
        Err(fault) => findings.check(false, || fault),
    }
}

/// The checks of a picture's colours, and that its texts are apart.
pub fn check_looks(findings: &mut Findings, root: &Element) {
    let style = match Style::of(root) {
        Ok(style) => style,
        Err(fault) => return findings.check(false, || fault),
    };
    for page in pages(root) {
        check_texts(findings, &style, page);
        check_strokes(findings, &style, page);
        check_marks(findings, &style, page);
    }
    check_channels(findings, &style, root);
    check_legend(findings, &style, root);
    check_apart(findings, root);
}

// Every text can be read on what stands behind it, whatever that is.
fn check_texts(findings: &mut Findings, style: &Style, page: &Element) {
    let mut grounds = Vec::new();
    for it in placed(page) {
        if it.element.name == "rect" {
            grounds.push(it);
            continue;
        }
        if it.element.name != "text" {
            continue;
        }
        let point = [it.least[0], it.least[1] - ABOVE_FOOT];
        let behind = grounds.iter().rev().filter(|it| it.contains(point));
        let ground = behind.filter_map(|it| ground(style, it.element)).next();
        let ground = ground.unwrap_or(WHITE);
        for element in all(it.element) {
            let Some(fill) = ink(style, element, it.element) else {
                findings.check(false, || format!("{element:?} has no colour"));
                continue;
            };
            let found = contrast(fill, ground);
            findings.check(found >= LEAST_CONTRAST, || {
                format!("{element:?} is {fill:?} on {ground:?}, which makes {found:.2}")
            });
        }
    }
}

// The colour of a text, or of a piece of it that has none of its own.
fn ink(style: &Style, element: &Element, text: &Element) -> Option<Colour> {
    let fill = style.own(element, "fill").or(style.own(text, "fill"));
    fill.map_or(Some(BLACK), |fill| colour(&fill))
}

// What a box puts behind a text; a hatched one is as dark as its stripes.
fn ground(style: &Style, element: &Element) -> Option<Colour> {
    let fill = style.own(element, "fill").unwrap_or("black".to_string());
    let cover = style.own(element, "fill-opacity");
    let cover = cover.and_then(|cover| cover.parse().ok()).unwrap_or(1.0);
    if cover < LEAST_COVER {
        return None;
    }
    match fill.starts_with("url(") {
        true => Some(BLACK),
        false => colour(&fill),
    }
}

// Lines are traces, frames and the lines of the scale.
fn check_strokes(findings: &mut Findings, style: &Style, page: &Element) {
    for class in ["trace", "frame", "grid"] {
        for element in of_class(page, class) {
            let stroke = style.own(element, "stroke");
            let found = stroke.as_deref().and_then(colour);
            let found = found.map(|found| contrast(found, WHITE));
            findings.check(found.is_some_and(|found| found >= LEAST_CONTRAST), || {
                let part = element.attribute("data-part").unwrap_or(class);
                format!("{part} is {stroke:?}, which makes {found:?}")
            });
        }
    }
}

// A mark can be seen by its inside or by its outline.
fn check_marks(findings: &mut Findings, style: &Style, page: &Element) {
    for element in of_class(page, "snps") {
        let paints = ["fill", "stroke"].map(|name| style.own(element, name));
        let found = paints.iter().flatten().filter_map(|paint| colour(paint));
        let most = found
            .map(|found| contrast(found, WHITE))
            .fold(1.0, f64::max);
        findings.check(most >= LEAST_CONTRAST, || {
            let genotype = element.attribute("data-genotype");
            format!("marks of {genotype:?} are {paints:?}, which makes {most:.2}")
        });
    }
}

// No two channels of a run have the same colour and the same dashes, and each has the same in all rows.
fn check_channels(findings: &mut Findings, style: &Style, root: &Element) {
    let mut looks: Vec<(&str, [Option<String>; 2])> = Vec::new();
    for trace in of_class(root, "trace") {
        let part = trace.attribute("data-part").unwrap_or("");
        let look = ["stroke", "stroke-dasharray"].map(|name| style.own(trace, name));
        let other = looks
            .iter()
            .find(|(other, seen)| (*other == part) != (*seen == look));
        findings.check(other.is_none(), || {
            format!("{part} looks as {look:?}, and there is {other:?}")
        });
        if !looks.iter().any(|(other, _)| *other == part) {
            looks.push((part, look));
        }
    }
}

// The line before a channel's words looks as its trace, and a letter has the colour of its own.
fn check_legend(findings: &mut Findings, style: &Style, root: &Element) {
    let look = |element: &Element| ["stroke", "stroke-dasharray"].map(|it| style.own(element, it));
    let traces = of_class(root, "trace");
    let mut sample = None;
    for element in all(root) {
        if element.name == "path" {
            sample = Some(look(element));
        }
        let words = element.words.as_str();
        let mut told = traces.iter().filter(|trace| {
            let part = trace.attribute("data-part").unwrap_or("no part");
            let behind = words.strip_prefix(part).unwrap_or("");
            element.name == "text" && behind.starts_with(' ') && behind.contains(" point")
        });
        let Some(trace) = told.next() else {
            continue;
        };
        findings.check(sample == Some(look(trace)), || {
            format!("{words:?} is shown as {sample:?}, its trace is {trace:?}")
        });
        check_letters(findings, style, root, trace, words);
    }
}

fn check_letters(
    findings: &mut Findings,
    style: &Style,
    root: &Element,
    trace: &Element,
    words: &str,
) {
    let base = words.split_once(" base ").map(|(_, behind)| behind);
    let base = base.and_then(|behind| behind.chars().next());
    let stroke = style.own(trace, "stroke");
    for letter in of_class(root, "letter") {
        let is_other = base.map(String::from).as_ref() != Some(&letter.words);
        let fill = style.own(letter, "fill");
        findings.check(is_other || fill == stroke, || {
            format!("{letter:?} is {fill:?}, its trace {stroke:?}")
        });
    }
}

// The letters of the four bases are told apart by all readers and in grey, and are as their traces.
fn the_four_bases(group: &mut Group) {
    let mut findings = Findings::default();
    for name in ["run.ab1", "run.sff"] {
        let read = drawn(&Input::sample(name), PLAIN);
        let read = read.and_then(|root| Ok((Style::of(&root)?, root)));
        match read {
            Err(fault) => findings.check(false, || fault),
            Ok((style, root)) => check_bases(&mut findings, &style, &root),
        }
    }
    findings.report(group, "the colours of the bases", &[]);
}

fn check_bases(findings: &mut Findings, style: &Style, root: &Element) {
    let of_base = |base: &str| {
        let mut letters = of_class(root, "letter").into_iter();
        let letter = letters.find(|it| it.words == base && !has_class(it, "clipped"))?;
        ink(style, letter, letter)
    };
    let bases = ["A", "C", "G", "T"].map(|base| (base, of_base(base)));
    for (index, (one, ink)) in bases.iter().enumerate() {
        for (other, other_ink) in &bases[index + 1..] {
            let distances = ink
                .zip(*other_ink)
                .map(|(ink, other)| distances(ink, other));
            let fits = distances.is_some_and(|(colours, grey)| {
                colours >= LEAST_DISTANCE && grey >= LEAST_GREY_DISTANCE
            });
            findings.check(fits, || format!("{one} and {other}: {distances:?}"));
        }
    }
}

// How far apart two colours are for the reader who tells them apart least, and in grey.
fn distances(one: Colour, other: Colour) -> (f64, f64) {
    let [one, other] = [one, other].map(light);
    let least = READERS
        .iter()
        .map(|reader| {
            let [one, other] = [one, other].map(|light| lab(seen(reader, light)));
            let squares = [0, 1, 2].map(|axis| (one[axis] - other[axis]).powi(2));
            squares.iter().sum::<f64>().sqrt()
        })
        .fold(f64::INFINITY, f64::min);
    let [one, other] = [one, other].map(|light| lightness(luminance(light)));
    (least, (one - other).abs())
}

fn seen(reader: &[[f64; 3]; 3], light: Colour) -> Colour {
    let share = |row: [f64; 3]| row[0] * light[0] + row[1] * light[1] + row[2] * light[2];
    reader.map(|row| share(row).clamp(0.0, 1.0))
}

fn lightness(luminance: f64) -> f64 {
    116.0 * root(luminance) - 16.0
}

// The cube root, with a straight line near nought.
fn root(share: f64) -> f64 {
    if share > 216.0 / 24_389.0 {
        share.cbrt()
    } else {
        (24_389.0 / 27.0 * share + 16.0) / 116.0
    }
}

// CIE 1976 L*, a* and b* of light in the daylight D65.
fn lab(light: Colour) -> [f64; 3] {
    let [red, green, blue] = light;
    let x = (0.4124 * red + 0.3576 * green + 0.1805 * blue) / 0.9505;
    let y = luminance(light);
    let z = (0.0193 * red + 0.1192 * green + 0.9505 * blue) / 1.089;
    let [x, y, z] = [x, y, z].map(root);
    [116.0 * y - 16.0, 500.0 * (x - y), 200.0 * (y - z)]
}
