//! Drawing a file, and the checks of all that comes of it.

use crate::findings::Findings;
use crate::picture::{self, is_or_shortened, of_class, pages, Said};
use crate::program::{Output, Program};
use crate::scratch::Scratch;
use crate::verdict::{self, Format};
use crate::words::cleaned;
use crate::xml::Element;
use crate::{abif, gtc, sff, workers, xml};
use compare::report::Group;
use compare::samples;
use std::ffi::OsString;
use std::fs;
use std::os::unix::ffi::OsStrExt;
use std::path::Path;

const SVG_START: &[u8] = b"<svg xmlns=\"http://www.w3.org/2000/svg\" data-jtview=\"picture\"";
const PAGES_START: &[u8] =
    b"<!DOCTYPE html>\n<html xmlns=\"http://www.w3.org/1999/xhtml\" lang=\"en\" data-jtview=\"picture\"";

/// The paper that pages are made for.
#[derive(Clone, Copy, Debug, PartialEq, Eq)]
pub struct Paper {
    pub name: &'static str,
    pub landscape: bool,
}

pub const PAPERS: [Paper; 4] = [
    Paper::A4,
    Paper::new("A4", true),
    Paper::new("Letter", false),
    Paper::new("Letter", true),
];

impl Paper {
    pub const A4: Paper = Paper::new("A4", false);

    const fn new(name: &'static str, landscape: bool) -> Paper {
        Paper { name, landscape }
    }
}

/// What may be asked of a picture.
#[derive(Clone, Copy, Debug, Default)]
pub struct Wish {
    pub raw: bool,
    pub read: Option<u64>,
    pub points: Option<u64>,
    /// Pages for this paper, and not one picture.
    pub paper: Option<Paper>,
}

pub const PLAIN: Wish = Wish {
    raw: false,
    read: None,
    points: None,
    paper: None,
};

impl Wish {
    pub const fn raw() -> Wish {
        Wish { raw: true, ..PLAIN }
    }

    pub const fn read(number: u64) -> Wish {
        Wish {
            read: Some(number),
            ..PLAIN
        }
    }

    pub const fn points(number: u64) -> Wish {
        Wish {
            points: Some(number),
            ..PLAIN
        }
    }

    pub const fn pages(paper: Paper) -> Wish {
        Wish {
            paper: Some(paper),
            ..PLAIN
        }
    }

    /// What the name of the picture ends with.
    pub fn ending(&self) -> &'static str {
        if self.paper.is_some() {
            "html"
        } else {
            "svg"
        }
    }

    pub fn arguments(&self, file: &Path, picture: &Path) -> Vec<OsString> {
        let mut arguments: Vec<OsString> = vec!["draw".into(), file.into(), "-o".into()];
        arguments.push(picture.into());
        if self.raw {
            arguments.push("--raw".into());
        }
        if let Some(number) = self.read {
            arguments.extend(["--read".into(), number.to_string().into()]);
        }
        if let Some(number) = self.points {
            arguments.extend(["--points".into(), number.to_string().into()]);
        }
        if let Some(paper) = self.paper {
            arguments.extend(["--paper".into(), paper.name.into()]);
            arguments.extend(paper.landscape.then(|| "--landscape".into()));
        }
        arguments
    }
}

/// A file to be drawn, and what the messages call it.
pub struct Input {
    pub name: String,
    pub bytes: Vec<u8>,
}

impl Input {
    pub fn new(name: impl ToString, bytes: Vec<u8>) -> Input {
        let name = name.to_string();
        Input { name, bytes }
    }

    /// The stored files.
    pub fn samples() -> Vec<Input> {
        let samples = samples::all().into_iter();
        samples
            .map(|(name, bytes)| Input::new(name, bytes))
            .collect()
    }

    /// The stored file of this name.
    pub fn sample(name: &str) -> Input {
        let mut samples = Input::samples().into_iter();
        let sample = samples.find(|sample| sample.name == name);
        sample.expect("a sample of this name")
    }
}

/// What a run left: its output, and the picture where it wrote one.
#[derive(Debug, PartialEq, Eq)]
pub struct Drawn {
    pub output: Output,
    pub picture: Option<Vec<u8>>,
}

pub fn draw(program: &Program, file: &Path, picture: &Path, wish: Wish) -> Drawn {
    // There need not be an earlier picture.
    let _ = fs::remove_file(picture);
    Drawn {
        output: program.run(&wish.arguments(file, picture)),
        picture: fs::read(picture).ok(),
    }
}

/// Draws each file and checks its picture.
pub fn check_all(group: &mut Group, inputs: &[Input], wish: Wish) {
    check_all_with(group, inputs, wish, |_, _| {});
}

/// The same, with another check of each picture that could be read.
pub fn check_all_with(
    group: &mut Group,
    inputs: &[Input],
    wish: Wish,
    more: impl Fn(&mut Findings, &Element) + Sync,
) {
    let program = Program::plain();
    let scratch = Scratch::new();
    let findings = workers::each(inputs.len(), |worker, index| {
        let input = &inputs[index];
        let file = scratch.write(format!("file-{worker}"), &input.bytes);
        let picture = scratch.path(format!("picture-{worker}.{}", wish.ending()));
        let drawn = draw(&program, &file, &picture, wish);
        let mut findings = Findings::default();
        check_drawn(&mut findings, &drawn, &file, &input.bytes, wish);
        if let Ok(root) = read(&drawn.picture.unwrap_or_default(), wish) {
            more(&mut findings, &root);
        }
        findings
    });
    for (found, input) in findings.into_iter().zip(inputs) {
        let name = format!("{}, {wish:?}", input.name);
        found.report(group, &name, &input.bytes);
    }
}

/// The checks of a run for this file: its picture, its lines and its status.
pub fn check_drawn(findings: &mut Findings, drawn: &Drawn, file: &Path, bytes: &[u8], wish: Wish) {
    let output = &drawn.output;
    let Some(picture) = &drawn.picture else {
        return findings.check(false, || format!("no picture, {output:?}"));
    };
    let is_asked_refused = check_picture(findings, picture, file, bytes, wish);
    let lines = verdict::lines(file.as_os_str().as_bytes(), bytes);
    findings.check(output.stdout == lines, || {
        format!("printed {:?}", output.stdout_text())
    });
    findings.check(output.stderr.is_empty(), || {
        format!("complained {:?}", output.stderr_text())
    });
    let expected = i32::from(is_asked_refused || !verdict::is_whole(bytes));
    findings.check(output.status == Some(expected), || {
        format!("status {:?}, expected {expected}", output.status)
    });
}

/// The picture's root, or what is not well-formed.
pub fn read(picture: &[u8], wish: Wish) -> Result<Element, String> {
    match wish.paper {
        None => xml::read(picture),
        Some(_) => xml::read_page(picture),
    }
}

/// The checks of a picture; tells whether what was asked for is refused.
pub fn check_picture(
    findings: &mut Findings,
    picture: &[u8],
    file: &Path,
    bytes: &[u8],
    wish: Wish,
) -> bool {
    let root = match read(picture, wish) {
        Ok(root) => root,
        Err(fault) => {
            findings.check(false, || format!("not well-formed: {fault}"));
            return false;
        }
    };
    let start = wish.paper.map_or(SVG_START, |_| PAGES_START);
    findings.check(picture.starts_with(start), || {
        "a picture that does not begin as one".to_string()
    });
    check_name(findings, &root, file);
    check_sizes(findings, &root);
    check_styles(findings, &root);
    match Format::of(bytes) {
        Format::Abif => abif::check::check(findings, &root, bytes, wish.raw, wish.points),
        Format::Sff => sff::check::check(findings, &root, bytes, wish.read.unwrap_or(1)),
        Format::Gtc => gtc::check::check(findings, &root, bytes),
        Format::Unknown => check_unknown(findings, &root, bytes),
    }
}

// The name of the file stands in the root, and over every page, there as far as there is room.
fn check_name(findings: &mut Findings, root: &Element, file: &Path) {
    let name = cleaned(file.file_name().unwrap_or_default().as_bytes());
    let found = root.attribute("data-name");
    findings.check(found == Some(&name), || {
        format!("the name is {found:?} for {name:?}")
    });
    for page in pages(root) {
        let titles = of_class(page, "title");
        let fits = matches!(titles[..], [title] if is_or_shortened(&title.words, &name));
        findings.check(fits, || format!("the title is {titles:?} for {name:?}"));
    }
}

// A picture that is no page says how large it is.
fn check_sizes(findings: &mut Findings, root: &Element) {
    for page in pages(root) {
        let view = page.attribute("viewBox").unwrap_or("");
        let sizes = ["width", "height"].map(|name| page.attribute(name).unwrap_or(""));
        let is_told = view == format!("0 0 {} {}", sizes[0], sizes[1]) && sizes[0] == "1100";
        findings.check(root.name == "html" || is_told, || {
            format!("a picture of {sizes:?} in {view:?}")
        });
    }
}

// A picture that is no page is made as wide as the paper, and pages say what they are.
fn check_styles(findings: &mut Findings, root: &Element) {
    let style: String = picture::all(root)
        .into_iter()
        .filter(|it| it.name == "style")
        .map(|style| style.words.as_str())
        .collect();
    if root.name == "svg" {
        return findings.check(style.contains("@media print{"), || {
            format!("no rule for printing in {style:?}")
        });
    }
    let head = root.children.iter().find(|it| it.name == "head");
    let inside = head.map_or(&[][..], |head| &head.children);
    let mut names: Vec<&str> = inside.iter().map(|it| it.name.as_str()).collect();
    names.dedup();
    findings.check(names == ["meta", "title", "style"], || {
        format!("the head has {names:?}")
    });
    let title = inside.iter().find(|it| it.name == "title");
    let title = title.map_or("", |title| &title.words);
    let name = root.attribute("data-name").unwrap_or("");
    findings.check(title.contains(name), || {
        format!("the title is {title:?} for {name:?}")
    });
}

// Nothing is drawn of a file that is of no format.
fn check_unknown(findings: &mut Findings, root: &Element, bytes: &[u8]) -> bool {
    picture::check_frame(
        findings,
        root,
        bytes,
        &picture::Parts::new(),
        |part, refusal| Said::of(part.to_string(), refusal),
    );
    let drawn = [
        "row", "trace", "letter", "quality", "flow", "clipped", "snps",
    ];
    let classes = drawn.into_iter().chain(["file-refused"]);
    let count: usize = classes.map(|class| of_class(root, class).len()).sum();
    findings.check(count == 0, || format!("{count} drawn of an unknown file"));
    true
}
