//! More than one file, and folders: a row for each file, and a line that counts them.

use crate::abif::checked::check;
use crate::abif::guessed::guess;
use crate::abif::tagged::{content, file, random_file, required_items, with};
use crate::program::{Output, Program};
use crate::scratch::Scratch;
use crate::screen;
use crate::verdict::{self, Format};
use crate::words::{cleaned, refused};
use compare::abif::reader::Tag;
use compare::random::Random;
use compare::report::Group;
use compare::samples;
use std::ffi::OsString;
use std::fs;
use std::os::unix::ffi::{OsStrExt, OsStringExt};
use std::path::Path;

const HEAD: &str = "profile  since    missing  another type  not in profile  of analysis  file\n";
const FILES_FOR_THE_TERMINAL: usize = 400;

pub fn table(group: &mut Group) {
    let scratch = Scratch::new();
    fill(&scratch);
    let folder = scratch.folder();
    compare_paths(group, folder, &["shelf"], None);
    for profile in 1..=8 {
        compare_paths(group, folder, &["shelf"], Some(profile));
    }
    compare_paths(group, folder, &["shelf/a", "alone.ab1", "alone.ab1"], None);
    compare_paths(group, folder, &["right"], Some(7));
    compare_paths(group, folder, &["alone.ab1", "no such file"], None);
    on_a_terminal(group, &scratch);
}

// Right and wrong files, all samples, a name that is not shown as it is, and a link that is passed over.
fn fill(scratch: &Scratch) {
    let mut random = Random::new(93);
    for folder in ["shelf", "shelf/a", "shelf/samples", "right"] {
        fs::create_dir(scratch.path(folder)).expect("a new folder");
    }
    for profile in 1..=8 {
        let bytes = random_file(&mut random, profile);
        scratch.write(format!("shelf/a/{profile}.ab1"), &bytes);
        let bytes = file(&mut random, required_items(profile));
        scratch.write(format!("shelf/{profile}.fsa"), &bytes);
    }
    for (name, bytes) in samples::all() {
        scratch.write(Path::new("shelf/samples").join(name), &bytes);
    }
    let analysed = with(required_items(7), Tag::new(b"PBAS", 1), content(2, 5));
    let unprintable = OsString::from_vec(b"shelf/\x01\n\xFF".to_vec());
    scratch.write(unprintable, &file(&mut random, analysed.clone()));
    scratch.write("alone.ab1", &file(&mut random, analysed));
    scratch.write("right/1.ab1", &file(&mut random, required_items(7)));
    std::os::unix::fs::symlink("../right", scratch.path("shelf/link")).expect("a new link");
}

/// What is counted over all files that were named.
#[derive(Default)]
struct Tally {
    rows: String,
    files: usize,
    right: usize,
    found: usize,
    refused: usize,
    others: usize,
    unreadable: usize,
}

impl Tally {
    fn of(folder: &Path, paths: &[&str], profile: Option<u64>) -> Tally {
        let mut tally = Tally::default();
        for path in paths {
            tally.add(folder, Path::new(path), profile);
        }
        tally
    }

    fn add(&mut self, folder: &Path, path: &Path, profile: Option<u64>) {
        let full = folder.join(path);
        if !full.is_dir() {
            return self.add_file(path, fs::read(full).ok(), profile);
        }
        let entries = fs::read_dir(full).expect("a folder of this test").flatten();
        let mut names: Vec<OsString> = entries.map(|entry| entry.file_name()).collect();
        names.sort_by(|one, other| one.as_bytes().cmp(other.as_bytes()));
        for name in names.iter().filter(|name| *name != "link") {
            self.add(folder, &path.join(name), profile);
        }
    }

    fn add_file(&mut self, path: &Path, bytes: Option<Vec<u8>>, profile: Option<u64>) {
        self.files += 1;
        let Some(bytes) = bytes else {
            self.unreadable += 1;
            return;
        };
        let name = cleaned(path.as_os_str().as_bytes());
        let row = match (Format::of(&bytes), verdict::refused(&bytes)) {
            (Format::Abif, None) => self.numbers(path, &bytes, profile) + &name,
            (Format::Abif, Some(it)) => {
                self.refused += 1;
                format!("{}{name}: {}", no_numbers(), refused(it.refusal))
            }
            (format, _) => {
                self.others += 1;
                format!("{}{name}: {}, no ABIF file", no_numbers(), format.name())
            }
        };
        self.rows.push_str(&format!("{row}\n"));
    }

    fn numbers(&mut self, path: &Path, bytes: &[u8], profile: Option<u64>) -> String {
        let (profile, since) = match profile {
            Some(profile) => (profile, "given".to_string()),
            None => {
                let guess = guess(&path.to_string_lossy(), bytes);
                (guess.profile, guess.since)
            }
        };
        let counts = check("", bytes, Some(profile)).counts;
        self.right += usize::from(counts.all() == 0);
        self.found += usize::from(counts.all() > 0);
        let numbers = [
            counts.missing,
            counts.other_type,
            counts.not_in_profile,
            counts.added_later,
        ];
        row(
            &profile.to_string(),
            &since,
            numbers.map(|number| number.to_string()),
        )
    }

    fn printed(&self) -> String {
        format!(
            "{HEAD}{}{} files: {} without findings, {} with findings, {} refused, {} no ABIF files, {} not readable\n",
            self.rows, self.files, self.right, self.found, self.refused, self.others, self.unreadable
        )
    }

    fn status(&self) -> i32 {
        if self.unreadable > 0 {
            2
        } else {
            i32::from(self.right < self.files)
        }
    }
}

// A row up to the file's name.
fn row(profile: &str, since: &str, [missing, other, not_in, added]: [String; 4]) -> String {
    format!("{profile:>7}  {since:8} {missing:>7}  {other:>12}  {not_in:>14}  {added:>11}  ")
}

fn no_numbers() -> String {
    row("-", "-", [(); 4].map(|()| "-".to_string()))
}

fn compare_paths(group: &mut Group, folder: &Path, paths: &[&str], profile: Option<u64>) -> Output {
    let tally = Tally::of(folder, paths, profile);
    let chosen = profile.map(|profile| format!("--profile={profile}"));
    let mut arguments = vec!["check"];
    arguments.extend(chosen.as_deref());
    arguments.extend(paths);
    let output = Program::plain().run_in(folder, &arguments);
    group.input();
    group.check(output.stdout_text() == tally.printed(), &[], || {
        format!(
            "printed {}, expected {}",
            output.stdout_text(),
            tally.printed()
        )
    });
    let is_told = output.stderr.is_empty() == (tally.unreadable == 0);
    group.check(
        is_told && output.status == Some(tally.status()),
        &[],
        || format!("status {:?}, {:?}", output.status, output.stderr_text()),
    );
    output
}

fn on_a_terminal(group: &mut Group, scratch: &Scratch) {
    let bytes = fs::read(scratch.path("right/1.ab1")).unwrap_or_default();
    fs::create_dir(scratch.path("many")).expect("a new folder");
    for number in 0..FILES_FOR_THE_TERMINAL {
        scratch.write(format!("many/{number}.ab1"), &bytes);
    }
    let words = "check --profile 7 many >rows";
    screen::check_progress(
        group,
        scratch.folder(),
        words,
        "400 files, 0 not as their tables say",
    );
    let rows = fs::read(scratch.path("rows")).unwrap_or_default();
    let expected = Tally::of(scratch.folder(), &["many"], Some(7)).printed();
    group.check(rows == expected.as_bytes(), &[], || {
        "other rows on a terminal".to_string()
    });
}
