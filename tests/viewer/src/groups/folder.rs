//! Folders of files: their lines, the summary, and the progress on a terminal.

use crate::program::{Output, Program};
use crate::scratch::Scratch;
use crate::screen;
use crate::sentences;
use crate::verdict::{self, Format};
use compare::report::Group;
use compare::samples;
use std::collections::BTreeMap;
use std::ffi::{OsStr, OsString};
use std::fs;
use std::os::unix::ffi::{OsStrExt, OsStringExt};
use std::os::unix::fs::symlink;
use std::path::Path;
use std::process::Command;

const PIPE: &str = "a pipe";
const FILES_FOR_THE_TERMINAL: usize = 400;

pub fn folder(group: &mut Group) {
    let scratch = Scratch::new();
    fill(&scratch);
    let folder = scratch.folder();
    compare_paths(group, folder, &["shelf"]);
    compare_paths(
        group,
        folder,
        &["shelf/a", "alone.sff", "shelf/a/b", "alone.sff"],
    );
    compare_paths(group, folder, &["whole"]);
    compare_paths(group, folder, &["one"]);
    compare_paths(group, folder, &["shelf/empty"]);
    with_a_pipe(group, folder);
    with_a_missing_folder(group, folder);
    on_a_terminal(group, &scratch);
}

// Names that sort otherwise by letters than by bytes, folders among files, and what is passed over.
fn fill(scratch: &Scratch) {
    let folders = [
        "shelf",
        "shelf/a",
        "shelf/a/b",
        "shelf/a.d",
        "shelf/empty",
        "whole",
        "one",
    ];
    for folder in folders {
        fs::create_dir(scratch.path(folder)).expect("a new folder");
    }
    for (name, bytes) in samples::all() {
        scratch.write(Path::new("shelf/a/b").join(name), &bytes);
    }
    let names = [
        "Z", "a-", "a.", "a0", "b", "é", "~", ".hidden", "a.d/x", "a/b.d", "a/C",
    ];
    let bytes = samples::all().into_iter().map(|sample| sample.1).cycle();
    for (name, bytes) in names.into_iter().zip(bytes) {
        scratch.write(Path::new("shelf").join(name), &bytes);
    }
    let unprintable = OsString::from_vec(b"shelf/\x01\n\xFF".to_vec());
    scratch.write(unprintable, &compare::gtc::samples::three_snps());
    scratch.write("alone.sff", &compare::sff::samples::one_read());
    scratch.write("whole/1.sff", &compare::sff::samples::one_read());
    scratch.write("whole/2.gtc", &compare::gtc::samples::three_snps());
    let followed = [&compare::sff::samples::one_read()[..], b"x"].concat();
    scratch.write("one/1.sff", &followed);
    symlink("../whole", scratch.path("shelf/link")).expect("a new link");
    symlink("..", scratch.path("shelf/a/up")).expect("a new link");
}

/// What is counted over all files that were named.
#[derive(Default)]
struct Tally {
    lines: Vec<u8>,
    files: usize,
    whole: usize,
    with_tail: usize,
    unknown: usize,
    unreadable: usize,
    refused: BTreeMap<u64, usize>,
}

impl Tally {
    fn of<S: AsRef<OsStr>>(folder: &Path, arguments: &[S]) -> Tally {
        let mut tally = Tally::default();
        for argument in arguments {
            tally.add(folder, Path::new(argument));
        }
        tally
    }

    // A folder's entries by their names' bytes, each subfolder where its name stands.
    fn add(&mut self, folder: &Path, path: &Path) {
        let full = folder.join(path);
        if !full.is_dir() {
            return self.add_file(path, fs::read(full).ok());
        }
        let entries = fs::read_dir(full).expect("a folder of this test");
        let mut names: Vec<OsString> = entries.flatten().map(|entry| entry.file_name()).collect();
        names.sort_by(|one, other| one.as_bytes().cmp(other.as_bytes()));
        for name in names {
            let inner = path.join(name);
            let full = folder.join(&inner);
            if full.ends_with(PIPE) {
                self.add_file(&inner, None);
            } else if !(full.is_symlink() && full.is_dir()) {
                self.add(folder, &inner);
            }
        }
    }

    fn add_file(&mut self, path: &Path, bytes: Option<Vec<u8>>) {
        self.files += 1;
        let Some(bytes) = bytes else {
            self.unreadable += 1;
            return;
        };
        self.lines
            .extend(verdict::lines(path.as_os_str().as_bytes(), &bytes));
        let tail = verdict::whole(&bytes).map_or(0, |judged| judged.tail);
        self.with_tail += usize::from(tail > 0);
        match verdict::refused(&bytes) {
            Some(it) => {
                *self.refused.entry(it.refusal as u64).or_default() += 1;
            }
            None if Format::of(&bytes) == Format::Unknown => self.unknown += 1,
            None => self.whole += 1,
        }
    }

    fn summary(&self) -> String {
        let refused: usize = self.refused.values().sum();
        let mut text = format!(
            "{} files: {} whole, {refused} refused, {} unknown, {} not readable\n",
            self.files, self.whole, self.unknown, self.unreadable
        );
        match self.with_tail {
            0 => {}
            1 => text.push_str("  1 whole file with bytes behind the end\n"),
            count => text.push_str(&format!(
                "  {count} whole files with bytes behind the end\n"
            )),
        }
        for (&number, &count) in &self.refused {
            let files = if count == 1 { "file" } else { "files" };
            let words = sentences::words(number);
            text.push_str(&format!("  {count} {files} refused {number}: {words}\n"));
        }
        text
    }

    fn printed(&self) -> Vec<u8> {
        [&self.lines[..], self.summary().as_bytes()].concat()
    }

    fn status(&self) -> i32 {
        if self.unreadable > 0 {
            2
        } else {
            i32::from(self.whole < self.files)
        }
    }
}

fn compare_paths(group: &mut Group, folder: &Path, arguments: &[&str]) -> Output {
    let tally = Tally::of(folder, arguments);
    let output = Program::plain().run_in(folder, arguments);
    group.input();
    group.check(output.stdout == tally.printed(), &[], || {
        let expected = String::from_utf8_lossy(&tally.printed()).into_owned();
        format!("printed {:?}, expected {expected:?}", output.stdout_text())
    });
    group.check(output.status == Some(tally.status()), &[], || {
        format!("status {:?}, expected {}", output.status, tally.status())
    });
    group.check(
        output.stderr.is_empty() || tally.unreadable > 0,
        &[],
        || format!("complained {:?}", output.stderr_text()),
    );
    output
}

fn with_a_pipe(group: &mut Group, folder: &Path) {
    let path = folder.join("shelf/a").join(PIPE);
    let made = Command::new("mkfifo").arg(&path).status();
    group.check(made.is_ok_and(|made| made.success()), &[], || {
        "no pipe".to_string()
    });
    let output = compare_paths(group, folder, &["shelf"]);
    let complaint = output.stderr_text();
    let fits = complaint.starts_with("jtview: shelf/a/a pipe: ") && complaint.lines().count() == 1;
    group.check(fits, &[], || format!("complained {complaint:?}"));
}

fn with_a_missing_folder(group: &mut Group, folder: &Path) {
    let output = compare_paths(group, folder, &["whole", "no such folder"]);
    let complaint = output.stderr_text();
    group.check(
        complaint.starts_with("jtview: no such folder: "),
        &[],
        || format!("complained {complaint:?}"),
    );
}

// The terminal gets the standard error alone, which must end up as it was.
fn on_a_terminal(group: &mut Group, scratch: &Scratch) {
    let bytes = compare::sff::samples::one_read();
    fs::create_dir(scratch.path("many")).expect("a new folder");
    for number in 0..FILES_FOR_THE_TERMINAL {
        scratch.write(format!("many/{number}.sff"), &bytes);
    }
    screen::check_progress(group, scratch.folder(), "many >lines", "400 files");
    let lines = fs::read(scratch.path("lines")).unwrap_or_default();
    let expected = Tally::of(scratch.folder(), &["many"]).printed();
    group.check(lines == expected, &[], || {
        "other lines on a terminal".to_string()
    });
}
