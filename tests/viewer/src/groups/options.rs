//! The words of the command line: what they ask for, and what is wrong and changes nothing.

use crate::program::{Output, Program};
use crate::scratch::Scratch;
use crate::verdict;
use compare::report::Group;
use compare::samples;
use std::collections::BTreeMap;
use std::ffi::OsString;
use std::fs;
use std::os::unix::fs::symlink;
use std::path::Path;

const FILE: &str = "run.ab1";
const OTHER: &str = "other.ab1";
const READS: &str = "run.sff";
const PICTURE: &str = "picture.svg";
const NUMBER: &str = "18446744073709551616";
const SVG: &[u8] = b"<svg xmlns=\"http://www.w3.org/2000/svg\" data-jtview=\"picture\"";
const PAGES: &[u8] =
    b"<!DOCTYPE html>\n<html xmlns=\"http://www.w3.org/1999/xhtml\" lang=\"en\" data-jtview=\"picture\"";

/// Arguments that cannot be meant.
const WRONG: [&[&str]; 73] = [
    &[],
    &["--"],
    &["--colour", FILE],
    &[FILE, "--raw"],
    &["-x", FILE],
    &["--help=yes"],
    &["list"],
    &["list", FILE, FILE],
    &["list", FILE, "--raw"],
    &["list", "-o", PICTURE, FILE],
    &["show"],
    &["show", FILE],
    &["show", FILE, "PBAS"],
    &["show", FILE, "PBAS", "1", "2"],
    &["show", FILE, "PBAS", "1", "--help"],
    &["show", "--raw", FILE, "PBAS", "1"],
    &["show", FILE, "PBA", "1"],
    &["show", FILE, "PBASE", "1"],
    &["show", FILE, "", "1"],
    &["show", FILE, "PBAS", ""],
    &["show", FILE, "PBAS", "x"],
    &["show", FILE, "PBAS", "1x"],
    &["show", FILE, "PBAS", "1.5"],
    &["show", FILE, "PBAS", "0x1"],
    &["show", FILE, "PBAS", "2147483648"],
    &["show", FILE, "PBAS", "-2147483649"],
    &["show", FILE, "PBAS", "99999999999999999999999"],
    &["draw"],
    &["draw", "--raw"],
    &["draw", FILE, "-o"],
    &["draw", "-o", PICTURE],
    &["draw", FILE, FILE, "-o", PICTURE],
    &["draw", FILE, "-o", PICTURE, "--raw", "--colour"],
    &["draw", FILE, "-o", PICTURE, "--raw=yes"],
    &["draw", FILE, "-o", PICTURE, "--r", "2"],
    &["draw", FILE, "-o", PICTURE, "--p", "50"],
    &["draw", FILE, "-o", PICTURE, "--read"],
    &["draw", FILE, "-o", PICTURE, "--read", "x"],
    &["draw", FILE, "-o", PICTURE, "--read", "-1"],
    &["draw", FILE, "-o", PICTURE, "--read", "1x"],
    &["draw", FILE, "-o", PICTURE, "--read", ""],
    &["draw", FILE, "-o", PICTURE, "--read="],
    &["draw", FILE, "-o", PICTURE, "--read", NUMBER],
    &["draw", FILE, "-o", PICTURE, "--points"],
    &["draw", FILE, "-o", PICTURE, "--points", "49"],
    &["draw", FILE, "-o", PICTURE, "--points", "1000000001"],
    &["draw", FILE, "-o", PICTURE, "--points", "0"],
    &["draw", FILE, "-o", PICTURE, "--points=many"],
    &["draw", FILE, "-o", PICTURE, "--paper"],
    &["draw", FILE, "-o", PICTURE, "--paper", "A5"],
    &["draw", FILE, "-o", PICTURE, "--paper="],
    &["draw", FILE, "-o", PICTURE, "--", "--raw"],
    &["draw", FILE, "-o", PICTURE, "--fasta"],
    &["draw", FILE, "-o", PICTURE, "--refused"],
    &["export", FILE],
    &["export", "--fasta"],
    &["export", FILE, FILE, "--fasta"],
    &["export", FILE, "--fasta", "--csv"],
    &["export", FILE, "--fast"],
    &["export", FILE, "--fasta", "--re", "1"],
    &["export", FILE, "--fasta", "--read", "x"],
    &["export", FILE, "--fasta", "--landscape"],
    &["export", FILE, "--fasta", "-o"],
    &["check"],
    &["check", "--profile", "3"],
    &["check", FILE, "--profile"],
    &["check", FILE, "--profile", "0"],
    &["check", FILE, "--profile", "9"],
    &["check", FILE, "--profile", "-1"],
    &["check", FILE, "--profile=3x"],
    &["check", FILE, "--profile="],
    &["check", FILE, "--profile", NUMBER],
    &["check", FILE, "--raw"],
];

/// Outputs that are not written.
const NOT_WRITTEN: [&[&str]; 25] = [
    &["draw", FILE, "-o", FILE],
    &["draw", FILE, "-o", "soft.ab1"],
    &["draw", "soft.ab1", "-o", FILE],
    &["draw", FILE, "-o", ""],
    &["draw", FILE, "-o", "./run.ab1"],
    &["draw", FILE, "-o", "link.ab1"],
    &["draw", FILE, "-o", "no such folder/picture.svg"],
    &["draw", FILE, "-o", "folder"],
    &["draw", FILE, "-o", OTHER],
    &["draw", FILE, "-o", "soft-other.ab1"],
    &["draw", FILE, "-o", "empty.svg"],
    &["draw", FILE, "-o", "mine.svg"],
    &["draw", FILE, "-o", "pages.svg"],
    &["draw", FILE, "-o", "svg.html"],
    &["draw", FILE, "-o", "mine.html"],
    &["draw", "mine.ab1"],
    &["draw", "old.svg", "-o", "old.svg"],
    &["draw", "far.svg", "-o", "soft.svg"],
    &["draw", "soft.svg", "-o", "far.svg"],
    &["export", FILE, "--fasta", "-o", FILE],
    &["export", FILE, "--fasta", "-o", "link.ab1"],
    &["export", FILE, "--fasta", "-o", "mine.svg"],
    &["export", FILE, "--fasta", "-o", "empty.svg"],
    &["export", FILE, "--fasta", "-o", "no such folder/letters"],
    &["export", FILE, "--fasta", "-o", "folder"],
];

/// Files that cannot be read.
const NOT_READ: [&[&str]; 10] = [
    &["list", "no such file"],
    &["show", "no such file", "PBAS", "1"],
    &["draw", "no such file", "-o", PICTURE],
    &["draw", "no such file"],
    &["list", "folder"],
    &["draw", "folder", "-o", PICTURE],
    &["export", "no such file", "--fasta"],
    &["check", "no such file"],
    &["check", "no such file", FILE],
    &["check", "folder", "no such file", "--profile", "1"],
];

/// Numbers that are just allowed, and options in another order, with the status.
const ALLOWED: [(&[&str], i32); 23] = [
    (&["show", FILE, "PBAS", "1"], 0),
    (&["show", "--", FILE, "PBAS", "1"], 0),
    (&["show", FILE, "PBAS", "2147483647"], 1),
    (&["show", FILE, "PBAS", "-2147483648"], 1),
    (&["draw", "--raw", "-o", PICTURE, FILE], 0),
    (&["draw", FILE, "--raw", "-o", PICTURE], 0),
    (&["draw", FILE, "-o", PICTURE, "--read", "0"], 0),
    (
        &["draw", FILE, "-o", PICTURE, "--read", "9223372036854775807"],
        0,
    ),
    (&["draw", FILE, "-o", PICTURE, "--points", "50"], 0),
    (&["draw", FILE, "-o", PICTURE, "--points", "1000000000"], 0),
    (
        &[
            "draw",
            READS,
            "-o",
            PICTURE,
            "--raw",
            "--points",
            "50",
            "--landscape",
        ],
        0,
    ),
    (&["draw", READS, "-o", PICTURE, "--read", "4"], 1),
    (
        &[
            "export",
            FILE,
            "--fasta",
            "--trimmed",
            "--read",
            "9",
            "--raw",
        ],
        0,
    ),
    (&["export", READS, "--fasta", "--read", "4"], 1),
    (&["list", FILE], 0),
    (&["list", "--", FILE], 0),
    (&["check", FILE], 1),
    (&["check", FILE, "--profile", "1"], 1),
    (&["check", "--prof=8", "--", FILE], 1),
    (&["check", FILE, "--profile", "2", "--profile", "3"], 1),
    (&["check", "--profile", "list"], 0),
    (&["check", FILE, "--profile=list"], 0),
    (&["check", "empty folder"], 0),
];

/// Pictures that are the same if they have the same name.
const PICTURES: [(&str, &[&str]); 12] = [
    ("one", &["draw", READS, "--read", "2", "-o", "a.svg"]),
    ("one", &["draw", READS, "--read=2", "-oa.svg"]),
    ("one", &["draw", "--rea=2", "--output", "a.svg", READS]),
    ("one", &["draw", "--output=a.svg", "--re", "2", "--", READS]),
    (
        "one",
        &["draw", "--ou", "a.svg", "--read", "1", "--read", "2", READS],
    ),
    (
        "two",
        &[
            "draw",
            READS,
            "--paper",
            "Letter",
            "--landscape",
            "-o",
            "a.html",
        ],
    ),
    (
        "two",
        &["draw", READS, "--paper=letter", "--land", "-o", "a.htm"],
    ),
    (
        "two",
        &["draw", READS, "--pap", "LETTER", "--l", "-o", "a.HTML"],
    ),
    ("three", &["draw", READS, "-o", "a.html"]),
    ("three", &["draw", READS, "--paper", "a4", "-o", "a.Htm"]),
    ("four", &["draw", READS, "-o", "a.svg"]),
    ("four", &["draw", READS]),
];

/// The commands, and what their help names.
const COMMANDS: [(&[&str], &[&str]); 6] = [
    (
        &[],
        &[
            "list FILE",
            "show FILE TAG NUMBER",
            "draw FILE",
            "export FILE",
            "FILE-OR-FOLDER",
        ],
    ),
    (&["list"], &["list FILE"]),
    (&["show"], &["show FILE TAG NUMBER"]),
    (
        &["draw"],
        &[
            "-o, --output OUT",
            "--raw ",
            "--read K",
            "--points N",
            "--paper",
            "--landscape ",
        ],
    ),
    (
        &["export"],
        &[
            "--fasta ",
            "--fastq ",
            "--csv ",
            "-o, --output OUT",
            "--trimmed ",
            "--raw ",
            "--read K",
            "--refused ",
        ],
    ),
    (&["check"], &["--profile N", "--profile list"]),
];

pub fn options(group: &mut Group) {
    let scratch = Scratch::new();
    fill(&scratch);
    for arguments in WRONG {
        let output = refused(group, &scratch, arguments);
        let complaint = output.stderr_text();
        let is_told = complaint.starts_with("jtview: ") && complaint.contains("--help");
        group.check(is_told && output.stdout.is_empty(), &[], || {
            format!("{arguments:?}: complained {complaint:?}")
        });
    }
    for arguments in NOT_WRITTEN.into_iter().chain(NOT_READ) {
        refused(group, &scratch, arguments);
    }
    reasons(group, &scratch);
    help(group, &scratch);
    bounds(group, &scratch);
    same_pictures(group, &scratch);
    replaced(group, &scratch);
    names_like_words(group);
}

fn sample(name: &str) -> Vec<u8> {
    let mut samples = samples::all().into_iter();
    let found = samples.find(|sample| sample.0 == name);
    found.map_or(Vec::new(), |(_, bytes)| bytes)
}

// Files of every kind that a picture might be meant to replace, and links to them.
fn fill(scratch: &Scratch) {
    let bytes = sample(FILE);
    let mine = [SVG, b">\n</svg>\n"].concat();
    let pages = [PAGES, b">\n</html>\n"].concat();
    for name in [FILE, OTHER, "mine.ab1"] {
        scratch.write(name, &bytes);
    }
    scratch.write(READS, &sample(READS));
    scratch.write(
        "mine.ab1.svg",
        b"<svg xmlns=\"http://www.w3.org/2000/svg\"></svg>\n",
    );
    scratch.write(
        "mine.svg",
        b"<svg xmlns=\"http://www.w3.org/2000/svg\"></svg>\n",
    );
    scratch.write("mine.html", b"<!DOCTYPE html>\n<html lang=\"en\"></html>\n");
    scratch.write("empty.svg", b"");
    scratch.write("pages.svg", &pages);
    scratch.write("svg.html", &mine);
    scratch.write("old.svg", &mine);
    scratch.write("old.html", &pages);
    scratch.write("far.svg", &mine);
    for name in ["folder", "empty folder"] {
        fs::create_dir(scratch.path(name)).expect("a new folder");
    }
    fs::hard_link(scratch.path(FILE), scratch.path("link.ab1")).expect("a new link");
    for (target, link) in [
        (FILE, "soft.ab1"),
        (OTHER, "soft-other.ab1"),
        ("far.svg", "soft.svg"),
    ] {
        symlink(target, scratch.path(link)).expect("a new link");
    }
}

// All that stands in the folder, links as such.
fn contents(folder: &Path) -> BTreeMap<OsString, Vec<u8>> {
    let entries = fs::read_dir(folder)
        .expect("a folder of this test")
        .flatten();
    let content = |path: &Path| match fs::read_link(path) {
        Ok(target) => [b"-> ", target.as_os_str().as_encoded_bytes()].concat(),
        Err(_) => fs::read(path).unwrap_or_default(),
    };
    entries
        .map(|entry| (entry.file_name(), content(&entry.path())))
        .collect()
}

fn refused(group: &mut Group, scratch: &Scratch, arguments: &[&str]) -> Output {
    let before = contents(scratch.folder());
    let output = Program::plain().run_in(scratch.folder(), arguments);
    group.input();
    group.check(output.status == Some(2), &[], || {
        format!("{arguments:?}: {output:?}")
    });
    group.check(!output.stderr.is_empty(), &[], || {
        format!("{arguments:?}: no complaint")
    });
    group.check(contents(scratch.folder()) == before, &[], || {
        format!("{arguments:?} changed the folder")
    });
    output
}

// What is told of a file that is not replaced.
fn reasons(group: &mut Group, scratch: &Scratch) {
    let told = [
        (
            &["draw", FILE, "-o", OTHER][..],
            "is no picture of this kind, and is not replaced",
        ),
        (
            &["draw", FILE, "-o", "empty.svg"],
            "is no picture of this kind, and is not replaced",
        ),
        (
            &["draw", FILE, "-o", "pages.svg"],
            "is no picture of this kind, and is not replaced",
        ),
        (
            &["draw", FILE, "-o", "svg.html"],
            "is no picture of this kind, and is not replaced",
        ),
        (
            &["export", FILE, "--csv", "-o", "mine.svg"],
            "is there already, and is not replaced",
        ),
        (
            &["export", FILE, "--csv", "-o", "soft.svg"],
            "is there already, and is not replaced",
        ),
    ];
    for (arguments, reason) in told {
        let output = refused(group, scratch, arguments);
        let place = arguments[arguments.len() - 1];
        let expected = format!("jtview: {place}: {reason}\n");
        group.check(output.stderr_text() == expected, &[], || {
            format!("{arguments:?}: complained {:?}", output.stderr_text())
        });
    }
}

fn help(group: &mut Group, scratch: &Scratch) {
    let before = contents(scratch.folder());
    for (command, named) in COMMANDS {
        for option in ["--help", "-h", "--he"] {
            let output = told(group, scratch, &[command, &[option]].concat());
            let text = output.stdout_text();
            let mut named =
                named
                    .iter()
                    .chain(&["-h, --help", "-V, --version", "Example: jtview "]);
            let missing = named.find(|words| !text.contains(**words));
            group.check(missing.is_none(), &[], || {
                format!("the help of {command:?} lacks {missing:?}")
            });
        }
        for option in ["--version", "-V", "--vers"] {
            let output = told(group, scratch, &[command, &[option]].concat());
            group.check(output.stdout == b"jtview 1.0\n", &[], || {
                format!("{command:?} {option}: {:?}", output.stdout_text())
            });
        }
    }
    told(group, scratch, &["draw", FILE, "--help"]);
    told(
        group,
        scratch,
        &["export", FILE, "--fasta", "-o", "letters", "-h"],
    );
    told(group, scratch, &["list", FILE, FILE, "--help"]);
    told(group, scratch, &[FILE, "--help"]);
    group.check(contents(scratch.folder()) == before, &[], || {
        "help changed the folder".to_string()
    });
}

fn told(group: &mut Group, scratch: &Scratch, arguments: &[&str]) -> Output {
    let output = Program::plain().run_in(scratch.folder(), arguments);
    let is_told = output.status == Some(0) && !output.stdout.is_empty() && output.stderr.is_empty();
    group.input();
    group.check(is_told, &[], || format!("{arguments:?}: {output:?}"));
    output
}

fn bounds(group: &mut Group, scratch: &Scratch) {
    for (arguments, status) in ALLOWED {
        let output = Program::plain().run_in(scratch.folder(), arguments);
        group.input();
        group.check(output.status == Some(status), &[], || {
            format!(
                "{arguments:?}: status {:?}, {}",
                output.status,
                output.stderr_text()
            )
        });
    }
}

// The same picture however its options are written, and wherever it goes.
fn same_pictures(group: &mut Group, scratch: &Scratch) {
    let mut first: BTreeMap<&str, Vec<u8>> = BTreeMap::new();
    for (same, arguments) in PICTURES {
        let is_pages = same == "two" || same == "three";
        let beginning = if is_pages { PAGES } else { SVG };
        let picture = new_picture(group, scratch, arguments);
        let earlier = first.entry(same).or_insert_with(|| picture.clone());
        let is_same = *earlier == picture && picture.starts_with(beginning);
        group.check(is_same, &[], || format!("{arguments:?}: another picture"));
    }
    let different: Vec<&Vec<u8>> = first.values().collect();
    let all_differ = (1..different.len()).all(|it| !different[..it].contains(&different[it]));
    group.check(all_differ, &[], || "pictures are alike".to_string());
}

// The one file that is new in the folder, which is taken away again.
fn new_picture(group: &mut Group, scratch: &Scratch, arguments: &[&str]) -> Vec<u8> {
    let before = contents(scratch.folder());
    let output = Program::plain().run_in(scratch.folder(), arguments);
    let mut after = contents(scratch.folder());
    after.retain(|name, _| !before.contains_key(name));
    let names: Vec<&OsString> = after.keys().collect();
    let is_beside = arguments.len() != 2 || names == ["run.sff.svg"];
    let is_drawn = output.status == Some(0) && names.len() == 1 && is_beside;
    group.input();
    group.check(is_drawn, &[], || {
        format!("{arguments:?}: {names:?}, {output:?}")
    });
    for name in &names {
        fs::remove_file(scratch.path(name)).expect("the new picture");
    }
    after.into_values().next().unwrap_or_default()
}

// A picture takes the place of one of its own kind, also behind a link, and the link stays.
fn replaced(group: &mut Group, scratch: &Scratch) {
    for (arguments, changed) in [
        (["draw", FILE, "-o", "old.svg"], "old.svg"),
        (["draw", FILE, "-o", "old.html"], "old.html"),
        (["draw", FILE, "-o", "soft.svg"], "far.svg"),
    ] {
        let before = contents(scratch.folder());
        let output = Program::plain().run_in(scratch.folder(), &arguments);
        let mut after = contents(scratch.folder());
        let new = after.insert(changed.into(), before[&OsString::from(changed)].clone());
        group.input();
        group.check(output.status == Some(0) && after == before, &[], || {
            format!("{arguments:?}: {output:?}")
        });
        let beginning = if changed.ends_with("html") {
            PAGES
        } else {
            SVG
        };
        let is_new = new.is_some_and(|new| new.starts_with(beginning) && new.len() > 2000);
        group.check(is_new, &[], || format!("{arguments:?}: no new picture"));
    }
}

// Files that are called like commands and options.
fn names_like_words(group: &mut Group) {
    let scratch = Scratch::new();
    let bytes = sample(READS);
    for name in ["list", "draw", "check", "-x", "--help"] {
        scratch.write(name, &bytes);
        let mut commands = vec![vec!["--", name], vec!["list", "--", name]];
        commands.push(vec!["export", "--fasta", "--", name]);
        commands.push(vec!["draw", "-o", "picture.svg", "--", name]);
        if !name.starts_with('-') {
            commands.push(vec!["list", name]);
        }
        for arguments in commands {
            let output = Program::plain().run_in(scratch.folder(), &arguments);
            let lines = verdict::lines(name.as_bytes(), &bytes);
            let is_judged = output.stdout.starts_with(&lines) || output.stderr.starts_with(&lines);
            group.input();
            group.check(is_judged && output.status == Some(0), &[], || {
                format!("{arguments:?}: {output:?}")
            });
        }
    }
}
