//! The sanitized program, which must do as the plain one does.

use super::cuts::cuts;
use super::damaged::{abif_files, gtc_files, sff_files};
use super::export::all_asked;
use crate::abif::guessed::PROFILES;
use crate::abif::tagged::random_file;
use crate::drawing::{draw, Input, Wish, PAPERS, PLAIN};
use crate::findings::Findings;
use crate::program::{Output, Program};
use crate::scratch::Scratch;
use crate::verdict::Format;
use crate::{abif, gtc, sff, workers};
use compare::abif::generate::Order;
use compare::abif::reader::open;
use compare::random::Random;
use compare::report::Group;
use std::ffi::OsString;
use std::os::unix::ffi::OsStringExt;
use std::path::{Path, PathBuf};

const DAMAGED: usize = 60;
const MOST_TAGS: usize = 32;
const TAGGED: usize = 24;
const REPORTS: [&str; 3] = ["Sanitizer", "runtime error", "==ERROR"];
const ABIF_WISHES: [Wish; 5] = [
    PLAIN,
    Wish::raw(),
    Wish::points(50),
    Wish::points(1001),
    Wish::pages(PAPERS[1]),
];
const SFF_WISHES: [Wish; 6] = [
    PLAIN,
    Wish::read(0),
    Wish::read(1),
    Wish::read(3),
    Wish::read(4_294_967_296),
    Wish::pages(PAPERS[2]),
];
const OTHER_WISHES: [Wish; 2] = [PLAIN, Wish::pages(PAPERS[3])];

pub fn sanitized(group: &mut Group) {
    let program = Program::sanitized();
    if !program.is_there() {
        let message = || format!("no viewer at {}", program.path().display());
        return group.check(false, &[], message);
    }
    compare_all(group, &Input::samples(), true);
    compare_all(group, &damaged(), false);
    compare_all(group, &cuts(&small_files()), false);
    compare_checks(group);
}

// Files with the tags of the published tables, right and wrong.
fn compare_checks(group: &mut Group) {
    let scratch = Scratch::new();
    let mut random = Random::new(94);
    for turn in 0..TAGGED {
        let bytes = random_file(&mut random, (turn % PROFILES.len() + 1) as u64);
        let mut both = Both {
            picture: scratch.path("picture"),
            file: scratch.write("file", &bytes),
            findings: Findings::default(),
        };
        for arguments in both.checks() {
            both.compare_output(&arguments);
        }
        both.findings.report(group, "tagged", &bytes);
    }
}

fn damaged() -> Vec<Input> {
    let mut inputs = abif_files(DAMAGED);
    inputs.extend(sff_files(DAMAGED));
    inputs.extend(gtc_files(DAMAGED));
    inputs
}

// One of each format.
fn small_files() -> [Vec<u8>; 3] {
    [
        abif::files::run([7, 5, 9, 6], Order::DirectoryFirst),
        sff::files::runs().swap_remove(1),
        gtc::files::files().swap_remove(3),
    ]
}

// Of many files not every command is run on each, but in turn.
fn compare_all(group: &mut Group, inputs: &[Input], every_command: bool) {
    let scratch = Scratch::new();
    let findings = workers::each(inputs.len(), |worker, index| {
        let file = scratch.write(format!("file-{worker}"), &inputs[index].bytes);
        let both = Both {
            picture: scratch.path(format!("picture-{worker}")),
            file,
            findings: Findings::default(),
        };
        let turn = if every_command { None } else { Some(index) };
        both.compare(&inputs[index].bytes, turn)
    });
    for (found, input) in findings.into_iter().zip(inputs) {
        found.report(group, &input.name, &input.bytes);
    }
}

/// The two programs at work on one file.
struct Both {
    file: PathBuf,
    picture: PathBuf,
    findings: Findings,
}

impl Both {
    fn compare(mut self, bytes: &[u8], turn: Option<usize>) -> Findings {
        let mut commands = self.commands(bytes);
        let mut wishes = wishes(bytes);
        if let Some(turn) = turn {
            commands = vec![commands.swap_remove(turn % commands.len())];
            wishes = vec![wishes[0], wishes[1 + turn % (wishes.len() - 1)]];
        }
        for arguments in commands {
            self.compare_output(&arguments);
        }
        for wish in wishes {
            self.compare_picture(wish);
        }
        self.findings
    }

    fn commands(&self, bytes: &[u8]) -> Vec<Vec<OsString>> {
        let file = self.file.as_os_str();
        let mut commands = vec![vec![file.into()], vec!["list".into(), file.into()]];
        for (name, number) in tags(bytes) {
            let name = OsString::from_vec(name.to_vec());
            commands.push(vec![
                "show".into(),
                file.into(),
                name,
                number.to_string().into(),
            ]);
        }
        commands.extend(self.checks());
        let exports = all_asked(Format::of(bytes)).iter();
        commands.extend(exports.map(|asked| asked.refused().arguments(&self.file)));
        commands
    }

    fn checks(&self) -> Vec<Vec<OsString>> {
        let file = self.file.as_os_str();
        let mut checks = vec![
            vec!["check".into(), file.into()],
            vec!["check".into(), file.into(), file.into()],
        ];
        for profile in 1..=PROFILES.len() {
            let chosen = format!("--profile={profile}").into();
            checks.push(vec!["check".into(), file.into(), chosen]);
        }
        checks
    }

    fn compare_output(&mut self, arguments: &[OsString]) {
        let plain = Program::plain().run(arguments);
        let sanitized = Program::sanitized().run(arguments);
        self.check_reports(&sanitized, arguments);
        self.findings.check(plain == sanitized, || {
            format!("{arguments:?}: plain {plain:?}, sanitized {sanitized:?}")
        });
    }

    fn compare_picture(&mut self, wish: Wish) {
        let picture = self.picture.with_extension(wish.ending());
        let plain = draw(&Program::plain(), &self.file, &picture, wish);
        let sanitized = draw(&Program::sanitized(), &self.file, &picture, wish);
        self.check_reports(
            &sanitized.output,
            &wish.arguments(&self.file, Path::new("")),
        );
        self.findings
            .check(plain == sanitized && plain.picture.is_some(), || {
                format!(
                    "{wish:?}: plain {:?}, sanitized {:?}",
                    plain.output, sanitized.output
                )
            });
    }

    fn check_reports(&mut self, output: &Output, arguments: &[OsString]) {
        let complaint = output.stderr_text();
        let is_report = REPORTS.iter().any(|report| complaint.contains(report));
        let is_ended = matches!(output.status, Some(0 | 1));
        self.findings.check(is_ended && !is_report, || {
            format!("{arguments:?}: status {:?}, {complaint}", output.status)
        });
    }
}

fn wishes(bytes: &[u8]) -> Vec<Wish> {
    match Format::of(bytes) {
        Format::Abif => ABIF_WISHES.to_vec(),
        Format::Sff => SFF_WISHES.to_vec(),
        _ => OTHER_WISHES.to_vec(),
    }
}

// The tags of a directory, and some that are not there; an argument cannot have a zero in it.
fn tags(bytes: &[u8]) -> Vec<([u8; 4], i32)> {
    let mut tags = vec![(*b"DATA", 9), (*b"PBAS", -1), (*b"FWO_", 1)];
    if let Ok(directory) = open(bytes) {
        let entries = directory.entries(bytes).take(MOST_TAGS);
        tags.extend(entries.map(|entry| (entry.tag.name.to_be_bytes(), entry.tag.number)));
    }
    tags.retain(|(name, _)| !name.contains(&0));
    tags
}
