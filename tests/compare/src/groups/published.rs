//! Published files with their published answers, asked of library and reader, in any format.

use super::Judging;
use crate::answers::Verdict;
use crate::format::{Format, Question};
use crate::program;
use crate::report::Group;
use std::fmt::Debug;

/// Sees that library and reader both give the published answer.
pub fn expect<Q: Question>(group: &mut Group, bytes: &[u8], question: Q, published: Q::Answer) {
    let answers = [question.ask_library(bytes), question.ask_reader(bytes)];
    check_sides(group, bytes, &question, answers, &published);
}

/// Sees that library and reader both judge the file so.
pub fn expect_verdict<F: Format>(group: &mut Group, bytes: &[u8], published: Verdict) {
    let verdicts = [F::library_verdict(bytes), F::reader_verdict(bytes)];
    check_sides(group, bytes, &Judging, verdicts, &published);
}

/// Sees that the reader's lines of the file are those that the program is due to print.
pub fn expect_lines(group: &mut Group, bytes: &[u8], printed: &str) {
    let lines = program::lines(bytes);
    group.check(lines == printed, bytes, || format!("reader {lines:?}"));
}

fn check_sides<A: Debug + PartialEq>(
    group: &mut Group,
    bytes: &[u8],
    call: &dyn Debug,
    answers: [A; 2],
    published: &A,
) {
    for (side, answer) in ["library", "reader"].into_iter().zip(answers) {
        group.check(answer == *published, bytes, || {
            format!("{call:?}: {side} {answer:?}, published {published:?}")
        });
    }
}
