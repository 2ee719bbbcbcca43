//! What listing a file and showing its items print, and the status.

use super::cuts::cuts;
use super::damaged::{abif_files, gtc_files, sff_files};
use super::tails::followed;
use crate::drawing::Input;
use crate::findings::Findings;
use crate::program::{Output, Program};
use crate::scratch::Scratch;
use crate::verdict::{self, Format};
use crate::words::{self, Line};
use crate::workers;
use crate::{abif, gtc, sff};
use compare::abif::generate::{plain_file, Content, Order};
use compare::abif::reader::{element, lookup, open, text, Tag, Type};
use compare::refusal::Refusal;
use compare::report::Group;
use compare::sff::reader::every_read;
use std::ffi::OsString;
use std::os::unix::ffi::{OsStrExt, OsStringExt};
use std::path::Path;
use std::time::{Duration, Instant};

const DAMAGED: usize = 150;
const MOST_ENTRIES: i32 = 999;
const CHAR: i16 = 2;
const SHORT: i16 = 4;
const BOOL: i16 = 13;
const MANY: usize = 4_000_000;
const MOST_TIME: Duration = Duration::from_secs(1);
const MOST_TAGS: usize = 30;

pub fn list_and_show(group: &mut Group) {
    let mut inputs = Input::samples();
    inputs.extend(followed());
    inputs.extend(abif_files(DAMAGED));
    inputs.extend(sff_files(DAMAGED));
    inputs.extend(gtc_files(DAMAGED));
    let run = abif::files::run([7, 5, 9, 6], Order::DirectoryFirst);
    inputs.extend(cuts(&[run]));
    inputs.extend(cuts(&sff::files::runs()[..4]));
    inputs.extend(cuts(&gtc::files::files()[..1]));
    let many = sff::files::many_reads().into_iter();
    inputs.extend(many.map(|bytes| Input::new("many reads", bytes)));
    let scratch = Scratch::new();
    let findings = workers::each(inputs.len(), |worker, index| {
        let bytes = &inputs[index].bytes;
        let file = scratch.write(format!("file-{worker}"), bytes);
        check(&file, bytes)
    });
    for (found, input) in findings.into_iter().zip(&inputs) {
        found.report(group, &input.name, &input.bytes);
    }
    many_elements(group, &scratch);
    many_numbers(group, &scratch);
}

// The last of as many tags as there may be, with so many elements of a type.
fn many(code: i16, data: Vec<u8>) -> Vec<u8> {
    let small = |number| (Tag::new(b"ABCD", number), Content::listed(4, vec![0, 1]));
    let mut items: Vec<(Tag, Content)> = (1..MOST_ENTRIES).map(small).collect();
    items.push((Tag::new(b"MANY", 1), Content::listed(code, data)));
    plain_file(&items, Order::DirectoryFirst).bytes()
}

// The last result, and the least time of three, since others may be at work.
fn quickest<R>(run: impl Fn() -> R) -> (R, Duration) {
    let timed = || {
        let start = Instant::now();
        (run(), start.elapsed())
    };
    let times = [timed().1, timed().1];
    let (result, time) = timed();
    (result, times.into_iter().fold(time, Duration::min))
}

// Each element takes no longer because of the tags before its own.
fn many_elements(group: &mut Group, scratch: &Scratch) {
    let data = [0, 1, 2, 0].repeat(MANY / 4);
    let file = scratch.write("bools", &many(BOOL, data));
    let arguments = [
        "show".as_ref(),
        file.as_os_str(),
        "MANY".as_ref(),
        "1".as_ref(),
    ];
    let (output, time) = quickest(|| Program::plain().run(&arguments));
    group.input();
    group.check(time < MOST_TIME, &[], || {
        format!("{MANY} bools in {time:?}")
    });
    let printed = output.stdout_text();
    let last: Vec<&str> = printed.lines().rev().take(4).collect();
    let expected = [
        "4000000: false",
        " 3999999: true",
        " 3999998: true",
        " 3999997: false",
    ];
    let fits = last
        .iter()
        .zip(expected)
        .all(|(line, expected)| line.trim() == expected.trim());
    group.check(fits && output.status == Some(0), &[], || {
        format!("{last:?}")
    });
    group.check(printed.lines().count() == MANY + 2, &[], || {
        format!("{} lines", printed.lines().count())
    });
}

// More numbers and letters than are read at once, shown as few are.
fn many_numbers(group: &mut Group, scratch: &Scratch) {
    let letters = b" GATTACA~".repeat(1000);
    let mut files = vec![many(CHAR, letters.clone())];
    for unprintable in [0x1F, 0x7F, 0x80] {
        let mut letters = letters.clone();
        letters[8999] = unprintable;
        files.push(many(CHAR, letters));
    }
    let shorts = (0..9000_u16).flat_map(u16::to_be_bytes).collect();
    files.push(many(SHORT, shorts));
    for bytes in files {
        let file = scratch.write("numbers", &bytes);
        let lines = verdict::lines(file.as_os_str().as_bytes(), &bytes);
        let mut findings = Findings::default();
        check_shown(&mut findings, &file, &bytes, &lines, Tag::new(b"MANY", 1));
        findings.report(group, "many numbers", &bytes);
    }
}

fn check(file: &Path, bytes: &[u8]) -> Findings {
    let mut findings = Findings::default();
    let lines = verdict::lines(file.as_os_str().as_bytes(), bytes);
    let output = Program::plain().run(&["list".as_ref(), file.as_os_str()]);
    let is_refused = !verdict::is_whole(bytes) || has_refused_read(bytes);
    check_start(&mut findings, "list", &output, &lines, is_refused);
    let listed = match Format::of(bytes) {
        Format::Abif => abif::listed::list(bytes),
        Format::Sff => sff::listed::list(bytes),
        Format::Gtc => gtc::listed::list(bytes),
        Format::Unknown => Vec::new(),
    };
    check_lines(&mut findings, "list", &output, &lines, &listed);
    if Format::of(bytes) == Format::Abif {
        for tag in tags(bytes) {
            check_shown(&mut findings, file, bytes, &lines, tag);
        }
    }
    findings
}

// The file's lines come first, and the status tells of the file and of what was asked for.
fn check_start(findings: &mut Findings, what: &str, output: &Output, lines: &[u8], refused: bool) {
    findings.check(output.stdout.starts_with(lines), || {
        format!("{what} printed {:?}", output.stdout_text())
    });
    findings.check(output.status == Some(refused.into()), || {
        format!("{what}: status {:?}, refused {refused}", output.status)
    });
    findings.check(output.stderr.is_empty(), || {
        format!("{what} complained {:?}", output.stderr_text())
    });
}

// A whole file may have reads that cannot be listed.
fn has_refused_read(bytes: &[u8]) -> bool {
    let mut found = false;
    let walked = every_read(bytes, |read| found |= read.is_err());
    Format::of(bytes) == Format::Sff && (found || walked.is_err())
}

fn check_shown(findings: &mut Findings, file: &Path, bytes: &[u8], lines: &[u8], tag: Tag) {
    let name = OsString::from_vec(tag.name.to_be_bytes().to_vec());
    let number = OsString::from(tag.number.to_string());
    let arguments = [OsString::from("show"), file.into(), name, number];
    let output = Program::plain().run(&arguments);
    let refusal = refusal_of(bytes, tag);
    let is_refused = refusal.is_some() || !verdict::is_whole(bytes);
    let what = format!("show {tag:?}");
    check_start(findings, &what, &output, lines, is_refused);
    let shown = abif::listed::show(bytes, tag);
    check_lines(findings, &what, &output, lines, &shown);
}

// The lines behind the file's own.
fn check_lines(
    findings: &mut Findings,
    what: &str,
    output: &Output,
    lines: &[u8],
    expected: &[Line],
) {
    let own = lines.iter().filter(|&&byte| byte == b'\n').count();
    let printed = output.stdout_text();
    let printed: Vec<&str> = printed.lines().skip(own).collect();
    let fault = words::fault(expected, &printed);
    findings.check(fault.is_none(), || {
        format!("{what}: {}", fault.unwrap_or_default())
    });
}

// The item's refusal, or that of its text or of one of its elements.
fn refusal_of(bytes: &[u8], tag: Tag) -> Option<Refusal> {
    let item = match lookup(bytes, tag) {
        Ok(item) => item,
        Err(refusal) => return Some(refusal),
    };
    match item.kind {
        Type::PString | Type::CString => text(bytes, tag).err(),
        Type::Date | Type::Time => {
            let mut elements = (1..=item.count).map(|index| element(bytes, tag, index));
            elements.find_map(Result::err)
        }
        _ => None,
    }
}

// The tags of the directory that an argument can hold, and two that may not be there.
fn tags(bytes: &[u8]) -> Vec<Tag> {
    let mut tags = vec![Tag::new(b"DATA", 9), Tag::new(b"none", -1)];
    if let Ok(directory) = open(bytes) {
        let entries = directory.entries(bytes).take(MOST_TAGS);
        tags.extend(entries.map(|entry| entry.tag));
    }
    tags.retain(|tag| !tag.name.to_be_bytes().contains(&0));
    tags
}
