//! Stored outputs of the viewer for stored samples, compared byte for byte.

use crate::abif::tagged;
use crate::drawing::{check_drawn, draw, Drawn, Wish, PAPERS, PLAIN};
use crate::findings::Findings;
use crate::program::{repository, Output, Program};
use crate::scratch::Scratch;
use compare::report::Group;
use std::path::{Path, PathBuf};
use std::{fs, io};

/// Files that are listed.
const LISTED: [&str; 18] = [
    "run.ab1",
    "cut-run.ab1",
    "cut-fragments.fsa",
    "run.sff",
    "cut-run.sff",
    "run.gtc",
    "cut-run.gtc",
    "every-type.ab1",
    "unusual-tags.ab1",
    "tag-twice.ab1",
    "cut-in-the-directory.ab1",
    "no-entries.ab1",
    "clip-above-the-bases.sff",
    "index-never-met.sff",
    "three-snps.gtc",
    "code-46.gtc",
    "id-twice.gtc",
    "not-a-file-we-know.txt",
];

/// Items that are shown: the file, the tag's name and its number.
const SHOWN: [(&str, &str, &str); 26] = [
    ("run.sff", "DATA", "1"),
    ("run.gtc", "DATA", "1"),
    ("run.ab1", "PBAS", "1"),
    ("run.ab1", "PCON", "2"),
    ("run.ab1", "SMPL", "1"),
    ("run.ab1", "RUND", "1"),
    ("run.ab1", "RUNT", "1"),
    ("run.ab1", "SPAC", "1"),
    ("run.ab1", "MODL", "1"),
    ("run.ab1", "LANE", "1"),
    ("run.ab1", "DATA", "5"),
    ("cut-run.ab1", "DATA", "12"),
    ("cut-run.ab1", "SMPL", "1"),
    ("cut-in-the-directory.ab1", "ABCD", "1"),
    ("month-thirteen.ab1", "ABCD", "1"),
    ("empty-item.ab1", "ABCD", "1"),
    ("tag-twice.ab1", "DATA", "1"),
    ("unusual-tags.ab1", "tdir", "2147483647"),
    ("every-type.ab1", "TYPE", "1"),
    ("every-type.ab1", "TYPE", "5"),
    ("every-type.ab1", "TYPE", "8"),
    ("every-type.ab1", "TYPE", "12"),
    ("every-type.ab1", "TYPE", "13"),
    ("every-type.ab1", "TYPE", "19"),
    ("every-type.ab1", "TYPE", "1024"),
    ("not-a-file-we-know.txt", "DATA", "1"),
];

/// Files that are exported, with the options.
const EXPORTED: [(&str, &str); 12] = [
    ("run.ab1", "--fasta"),
    ("run.ab1", "--fastq"),
    ("cut-run.ab1", "--fasta"),
    ("cut-run.ab1", "--fasta --refused"),
    ("run.sff", "--fasta"),
    ("run.sff", "--fastq --trimmed"),
    ("run.sff", "--fastq --read=2"),
    ("cut-run.sff", "--fasta --trimmed --refused"),
    ("clip-above-the-bases.sff", "--fasta"),
    ("three-snps.gtc", "--csv"),
    ("code-46.gtc", "--csv"),
    ("cut-in-the-scanner-data.gtc", "--csv --refused"),
];

/// What is checked, and the file that its output is stored in.
const CHECKED: [(&str, &[&str]); 13] = [
    ("run", &["samples/run.ab1"]),
    ("fragments", &["samples/fragments.fsa"]),
    ("every-type", &["samples/every-type.ab1"]),
    ("cut-run", &["samples/cut-run.ab1"]),
    ("reads", &["samples/run.sff"]),
    ("run-2", &["samples/run.ab1", "--profile=2"]),
    (
        "unusual-tags-5",
        &["samples/unusual-tags.ab1", "--profile=5"],
    ),
    ("no-entries-1", &["samples/no-entries.ab1", "--profile=1"]),
    ("no-entries-3", &["samples/no-entries.ab1", "--profile=3"]),
    ("no-entries-7", &["samples/no-entries.ab1", "--profile=7"]),
    ("no-entries-8", &["samples/no-entries.ab1", "--profile=8"]),
    (
        "some",
        &[
            "samples/run.ab1",
            "samples/cut-run.ab1",
            "samples/fragments.fsa",
            "samples/run.sff",
            "samples/empty.txt",
        ],
    ),
    ("profiles", &["--profile=list"]),
];

/// The commands whose help is stored, the program itself among them.
const HELPED: [&[&str]; 6] = [
    &[],
    &["list"],
    &["show"],
    &["draw"],
    &["export"],
    &["check"],
];

/// Small files that are drawn.
const DRAWN: [&str; 13] = [
    "one-inline-item.ab1",
    "bytes-behind-the-end.ab1",
    "cut-in-the-directory.ab1",
    "tag-twice.ab1",
    "one-read.sff",
    "cut-in-a-read.sff",
    "clip-above-the-bases.sff",
    "index-behind-the-reads.sff",
    "three-snps.gtc",
    "cut-in-the-table.gtc",
    "code-46.gtc",
    "no-entries.gtc",
    "not-a-file-we-know.txt",
];

/// The pictures that the documents show.
const DOCUMENTS: [(&str, Wish, &str); 6] = [
    ("run.ab1", PLAIN, "docs/whole-run.svg"),
    ("cut-run.ab1", PLAIN, "docs/cut-run.svg"),
    ("fragments.fsa", PLAIN, "docs/fragments.svg"),
    ("run.sff", PLAIN, "docs/read.svg"),
    ("run.gtc", PLAIN, "docs/snps.svg"),
    ("cut-run.ab1", Wish::pages(PAPERS[1]), "docs/cut-run.html"),
];

/// An output and the file that it is stored in.
struct Stored {
    path: PathBuf,
    output: Vec<u8>,
}

pub fn compare(group: &mut Group) {
    for made in all_outputs() {
        let stored = fs::read(&made.path).unwrap_or_default();
        group.input();
        group.check(
            !stored.is_empty() && stored == made.output,
            &made.output,
            || format!("another output than {}", made.path.display()),
        );
    }
    check_pictures(group);
}

pub fn store() -> io::Result<()> {
    fs::create_dir_all(folder())?;
    for made in all_outputs() {
        fs::write(made.path, made.output)?;
    }
    Ok(())
}

fn folder() -> PathBuf {
    Path::new(env!("CARGO_MANIFEST_DIR")).join("stored")
}

fn all_outputs() -> Vec<Stored> {
    let mut outputs = vec![printed("judge-samples.txt".to_string(), &["samples"])];
    for name in LISTED {
        let path = format!("samples/{name}");
        outputs.push(printed(format!("list-{name}.txt"), &["list", &path]));
    }
    for (name, tag, number) in SHOWN {
        let path = format!("samples/{name}");
        let stored = format!("show-{name}-{tag}-{number}.txt");
        outputs.push(printed(stored, &["show", &path, tag, number]));
    }
    for (name, options) in EXPORTED {
        let path = format!("samples/{name}");
        let stored = format!("export-{name}{}.txt", options.replace(' ', ""));
        let arguments: Vec<&str> = ["export", &path]
            .into_iter()
            .chain(options.split(' '))
            .collect();
        outputs.push(printed(stored, &arguments));
    }
    for (name, arguments) in CHECKED {
        let arguments = [&["check"], arguments].concat();
        outputs.push(printed(format!("check-{name}.txt"), &arguments));
    }
    outputs.push(every_tag());
    for command in HELPED {
        let stored = [&["help"], command].concat().join("-");
        let arguments = [command, &["--help"]].concat();
        outputs.push(printed(format!("{stored}.txt"), &arguments));
    }
    for name in DRAWN {
        let path = folder().join(format!("draw-{name}.svg"));
        let output = drawn(name, PLAIN).picture.unwrap_or_default();
        outputs.push(Stored { path, output });
    }
    for (name, wish, document) in DOCUMENTS {
        let path = repository().join(document);
        let output = drawn(name, wish).picture.unwrap_or_default();
        outputs.push(Stored { path, output });
    }
    outputs
}

// The descriptions of all tags.
fn every_tag() -> Stored {
    let scratch = Scratch::new();
    let name = "every-tag.ab1";
    scratch.write(name, &tagged::every_tag());
    let output = Program::plain().run_in(scratch.folder(), &["check", name, "--profile=4"]);
    with_status("check-every-tag.txt", output)
}

fn printed(name: String, arguments: &[&str]) -> Stored {
    with_status(&name, Program::plain().run(arguments))
}

// What was printed, the status behind it.
fn with_status(name: &str, output: Output) -> Stored {
    let status = output
        .status
        .map_or("none".to_string(), |status| status.to_string());
    let end = format!("status {status}\n");
    Stored {
        path: folder().join(name),
        output: [output.stdout, output.stderr, end.into_bytes()].concat(),
    }
}

fn drawn(name: &str, wish: Wish) -> Drawn {
    let scratch = Scratch::new();
    let file = Path::new("samples").join(name);
    let picture = scratch.path(format!("picture.{}", wish.ending()));
    draw(&Program::plain(), &file, &picture, wish)
}

// Every sample's picture is checked as those of cut files are.
fn check_pictures(group: &mut Group) {
    for (name, bytes) in compare::samples::all() {
        for wish in [
            PLAIN,
            Wish::raw(),
            Wish::read(0),
            Wish::read(2),
            Wish::read(3),
        ] {
            let file = Path::new("samples").join(name);
            let mut findings = Findings::default();
            check_drawn(&mut findings, &drawn(name, wish), &file, &bytes, wish);
            findings.report(group, &format!("{name}, {wish:?}"), &bytes);
        }
    }
}
