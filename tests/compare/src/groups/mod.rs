//! The test groups.

pub mod bulk;
pub mod cuts;
pub mod damaged;
mod program_lines;
pub mod published;
pub mod tails;
pub mod whole;

use crate::abif::Abif;
use crate::format::{Format, Question};
use crate::gtc::Gtc;
use crate::report::{Group, NamedRun, Run};
use crate::sff::Sff;
use std::fmt::Debug;

pub fn all() -> Vec<(String, Run)> {
    let mut groups = [of::<Abif>(), of::<Sff>(), of::<Gtc>()].concat();
    groups.push(("program lines".to_string(), program_lines::lines));
    groups.push(("program writes".to_string(), program_lines::writes));
    groups
}

// The groups of the format's own, and those that every format has.
fn of<F: Format>() -> Vec<(String, Run)> {
    let shared: [NamedRun; 9] = [
        ("whole files", whole::random_files::<F>),
        ("bytes behind the end", tails::followed_files::<F>),
        ("one rule broken", damaged::single_changes::<F>),
        ("two rules broken", damaged::pairs::<F>),
        ("several changes", damaged::several_changes::<F>),
        ("changed bytes", damaged::changed_bytes::<F>),
        ("random bytes", damaged::random_bytes::<F>),
        ("short files", damaged::short_files::<F>),
        ("every cut", cuts::every_cut::<F>),
    ];
    let reading = F::READING.iter().chain(&shared);
    let reading = reading.map(|(name, run)| (format!("{} {name}", F::NAME), *run));
    let writing = F::WRITING.iter();
    let writing = writing.map(|(name, run)| (format!("{} writing {name}", F::NAME), *run));
    reading.chain(writing).collect()
}

/// Names judging where its answers are shown.
#[derive(Debug)]
struct Judging;

/// Compares library and reader in every call on this file, and sees that the file stays as it is.
pub fn compare_file<F: Format>(group: &mut Group, bytes: &[u8], draft: Option<&F::Draft>) {
    group.input();
    let lent = bytes.to_vec().into_boxed_slice();
    let verdicts = [F::library_verdict(&lent), F::reader_verdict(bytes)];
    compare_answers(group, bytes, &Judging, verdicts);
    for question in F::questions(bytes, draft) {
        let answers = [question.ask_library(&lent), question.ask_reader(bytes)];
        compare_answers(group, bytes, &question, answers);
    }
    group.check(*lent == *bytes, bytes, || {
        "the library changed the file's bytes".to_string()
    });
}

fn compare_answers<A: Debug + PartialEq>(
    group: &mut Group,
    bytes: &[u8],
    call: &dyn Debug,
    [library, reader]: [A; 2],
) {
    group.check(library == reader, bytes, || {
        format!("{call:?}: library {library:?}, reader {reader:?}")
    });
}
