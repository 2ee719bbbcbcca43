//! The tags of files against the published tables, as `check` tells them.

mod asked;
mod guesses;
mod table;
mod words;

use crate::abif::guessed::PROFILES;
use crate::abif::tagged::{all_items, file, random_file, required_items};
use crate::program::Program;
use crate::scratch::Scratch;
use crate::sentences;
use crate::verdict::{self, Format};
use crate::workers;
use asked::Asked;
use compare::random::Random;
use compare::report::Group;
use compare::samples;

pub use table::table;

const RANDOM_FILES: usize = 400;
const NAMES: [&str; 4] = ["run.ab1", "RUN.FSA", "run.", "run.abi"];

pub fn check(group: &mut Group) {
    right_files(group);
    random_files(group);
    words::words(group);
    guesses::guesses(group);
    not_checked(group);
    profile_list(group);
}

// With what a profile requires, and with all that it has, there is nothing to be found.
fn right_files(group: &mut Group) {
    let mut random = Random::new(90);
    for profile in 1..=PROFILES.len() as u64 {
        for items in [required_items(profile), all_items(profile)] {
            let asked = Asked::against(profile, file(&mut random, items));
            let output = asked.run(&Scratch::new());
            let is_clean =
                output.status == Some(0) && output.stdout_text().contains("\nno findings: ");
            group.check(is_clean, &asked.bytes, || format!("{profile}: {output:?}"));
            asked.compare().report(group, "right", &asked.bytes);
        }
    }
}

fn random_files(group: &mut Group) {
    let mut random = Random::new(91);
    let asked: Vec<Asked> = (0..RANDOM_FILES)
        .map(|_| {
            let [profile, other] = [(); 2].map(|()| random.between(1, PROFILES.len()) as u64);
            Asked {
                name: random.pick(&NAMES),
                bytes: random_file(&mut random, profile),
                profile: random.pick(&[None, None, Some(profile), Some(other)]),
            }
        })
        .collect();
    let findings = workers::each(asked.len(), |_, index| asked[index].compare());
    for (found, asked) in findings.into_iter().zip(&asked) {
        found.report(group, asked.name, &asked.bytes);
    }
}

// Files that are refused, of other formats or of none are told as such.
fn not_checked(group: &mut Group) {
    for (name, bytes) in samples::all() {
        let path = format!("samples/{name}");
        let (mut told, mut complaint) = (String::new(), "");
        match (Format::of(&bytes), verdict::refused(&bytes)) {
            (Format::Abif, None) => continue,
            (Format::Abif, Some(refused)) => {
                let number = refused.refusal as u64;
                let words = sentences::words(number);
                told = format!("not checked: {words} (refused {number})\n");
            }
            _ => complaint = "jtview: only ABIF files have tags\n",
        }
        let lines = verdict::lines(path.as_bytes(), &bytes);
        let output = Program::plain().run(&["check", &path]);
        let expected = [&lines[..], told.as_bytes()].concat();
        let fits = output.stdout == expected && output.stderr_text() == complaint;
        group.input();
        group.check(fits && output.status == Some(1), &bytes, || {
            format!("{name}: {output:?}")
        });
    }
}

fn profile_list(group: &mut Group) {
    let output = Program::plain().run(&["check", "--profile", "list"]);
    let mut expected = "profile  instrument       software              files\n".to_string();
    for (profile, number) in PROFILES.iter().zip(1..) {
        expected.push_str(&format!(
            "      {number}  {:15}  Data Collection v{}  .{}\n",
            profile.instrument, profile.software, profile.kind
        ));
    }
    let is_told = output.status == Some(0) && output.stderr.is_empty();
    group.input();
    group.check(is_told && output.stdout_text() == expected, &[], || {
        format!("{output:?}")
    });
}
