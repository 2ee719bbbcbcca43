//! Every beginning of many small files, in any format.

use super::Judging;
use crate::answers::Verdict;
use crate::damage::{changed, random_byte_changes, random_changes};
use crate::format::{Answer, Draft, Files, Format, Question, CUT_SHORT};
use crate::random::Random;
use crate::report::Group;
use std::fmt::Debug;

const LONGEST: usize = 700;
const RANDOM_WHOLE: usize = 300;
const RANDOM_CHANGED: usize = 150;
const RANDOM_BYTES_CHANGED: usize = 80;
const MOST_ENTRIES: usize = 5;
const ENTRIES_OF_A_LONGER_FILE: usize = 40;

pub fn every_cut<F: Format>(group: &mut Group) {
    for (file, draft) in files::<F>() {
        cut_file::<F>(group, &file, &F::questions(&file, draft.as_ref()));
    }
}

type File<F> = (Vec<u8>, Option<<F as Files>::Draft>);

fn drafted<F: Format>(draft: F::Draft) -> File<F> {
    (draft.bytes(), Some(draft))
}

fn files<F: Format>() -> Vec<File<F>> {
    let mut random = Random::new(31);
    let mut files = Vec::new();
    for base in F::bases() {
        for fault in F::certain_faults(&base) {
            files.push(drafted::<F>(changed::<F>(&base, &[fault])));
        }
        files.push(drafted::<F>(base));
    }
    let mut add = |wanted: usize, make: &mut dyn FnMut() -> File<F>| {
        let target = files.len() + wanted;
        while files.len() < target {
            let file = make();
            if file.0.len() <= LONGEST {
                files.push(file);
            }
        }
    };
    add(RANDOM_WHOLE, &mut || {
        drafted::<F>(F::random_file(&mut random, MOST_ENTRIES))
    });
    add(RANDOM_CHANGED, &mut || {
        drafted::<F>(random_changes::<F>(&mut random))
    });
    add(RANDOM_BYTES_CHANGED, &mut || {
        (random_byte_changes::<F>(&mut random), None)
    });
    let longer = F::long_file(&mut random, ENTRIES_OF_A_LONGER_FILE);
    files.push(drafted::<F>(longer));
    files
}

// Asks every call on every beginning, each in a buffer of exactly its own length.
fn cut_file<F: Format>(group: &mut Group, file: &[u8], asked: &[F::Question]) {
    let judged = F::library_verdict(file);
    let extent = (judged.refusal == 0).then_some(judged.extent as usize);
    let asked_of_the_file = asked.iter().map(|question| question.ask_library(file));
    let on_the_file: Vec<_> = asked_of_the_file.collect();
    for length in 0..=file.len() {
        group.input();
        let bytes = file[..length].to_vec().into_boxed_slice();
        let cut = Cut {
            file,
            length,
            extent,
        };
        let verdicts = [F::library_verdict(&bytes), F::reader_verdict(&bytes)];
        let is_due = cut.is_due_of_judging(&verdicts[0], &judged);
        cut.check(group, &Judging, verdicts, &judged, is_due);
        for (question, full) in asked.iter().zip(&on_the_file) {
            let answers = [question.ask_library(&bytes), question.ask_reader(&bytes)];
            let is_due = cut.is_due(&answers[0], full);
            cut.check(group, question, answers, full, is_due);
        }
    }
}

/// A beginning of a file.
struct Cut<'a> {
    file: &'a [u8],
    length: usize,
    /// Of the full file, where that is whole.
    extent: Option<usize>,
}

impl Cut<'_> {
    // A cut answers as the full file or that it is cut short, from a whole file's extent on as the
    // full file.
    fn is_due<A: Answer>(&self, answer: &A, full: &A) -> bool {
        let has_extent = self.extent.is_some_and(|extent| self.length >= extent);
        answer == full || (!has_extent && answer.is_cut_short())
    }

    // Judging must find the same extent in every longer cut, with what lies after it, and none below.
    fn is_due_of_judging(&self, verdict: &Verdict, full: &Verdict) -> bool {
        let Some(extent) = self.extent else {
            return self.is_due(verdict, full);
        };
        let due = match self.length.checked_sub(extent) {
            Some(tail) => Verdict {
                tail: tail as u64,
                ..*full
            },
            None => Verdict::refused(CUT_SHORT, verdict.entry),
        };
        *verdict == due
    }

    fn check<A: Answer>(
        &self,
        group: &mut Group,
        call: &dyn Debug,
        [library, reader]: [A; 2],
        full: &A,
        is_due: bool,
    ) {
        let length = self.length;
        group.check(library == reader, self.file, || {
            format!("cut to {length}: {call:?}: library {library:?}, reader {reader:?}")
        });
        group.check(is_due, self.file, || {
            format!("cut to {length}: {call:?}: {library:?}, on the full file {full:?}")
        });
    }
}
