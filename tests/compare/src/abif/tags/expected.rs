//! Checks of tags by library and reader, with what they are due to find.

use super::check::{findings_of, Finding, FINDING_NUMBERS};
use super::row::Row;
use crate::abif::questions::{check_questions, Answer, Question};
use crate::abif::reader::Tag;
use crate::answers::Written;
use crate::arguments::rooms;
use crate::format::Question as _;
use crate::report::Group;

const OUTPUT_TOO_SMALL: u64 = 13;

/// Sees that both sides find just this, in a room too small by one, in just enough and in more.
pub fn expect(group: &mut Group, file: &[u8], profile: u64, due: &[(Tag, Finding)]) {
    group.input();
    for room in rooms(FINDING_NUMBERS * due.len()) {
        expect_in_room(group, file, (profile, room), due);
    }
}

/// Sees that both sides write this where it fits, and are else refused.
pub fn expect_in_room(
    group: &mut Group,
    file: &[u8],
    (profile, room): (u64, usize),
    due: &[(Tag, Finding)],
) {
    let numbers: Vec<i64> = due.iter().flat_map(numbers_of).collect();
    let written = if room < numbers.len() {
        Written::refused(OUTPUT_TOO_SMALL, room)
    } else {
        Written::holding(room, &numbers, due.len())
    };
    expect_answer(group, file, (profile, room), &Answer::Numbers(written));
}

/// Sees that both sides are refused so in this room.
pub fn expect_refusal(group: &mut Group, file: &[u8], asked: (u64, usize), refusal: u64) {
    let written = Written::refused(refusal, asked.1);
    expect_answer(group, file, asked, &Answer::Numbers(written));
}

fn expect_answer(group: &mut Group, file: &[u8], (profile, room): (u64, usize), due: &Answer) {
    let question = Question::CheckTags { profile, room };
    let answers = [question.ask_library(file), question.ask_reader(file)];
    for (side, answer) in ["library", "reader"].into_iter().zip(&answers) {
        group.check(answer == due, file, || {
            format!("{question:?}: {side} {answer:?}, due {due:?}")
        });
    }
}

fn numbers_of(&(tag, finding): &(Tag, Finding)) -> [i64; FINDING_NUMBERS] {
    [tag.name.into(), tag.number.into(), finding as i64]
}

/// Compares both sides in rooms around what is written, and returns the findings.
pub fn compare(group: &mut Group, file: &[u8], profile: u64) -> Vec<Finding> {
    group.input();
    for question in check_questions(file, profile) {
        let answers = [question.ask_library(file), question.ask_reader(file)];
        group.check(answers[0] == answers[1], file, || {
            let [library, reader] = &answers;
            format!("{question:?}: library {library:?}, reader {reader:?}")
        });
    }
    let findings = findings_of(file, profile).unwrap_or_default();
    findings.into_values().collect()
}

/// What is found of a file that has none of the required tags.
pub fn all_missing(rows: &[Row]) -> Vec<(Tag, Finding)> {
    let missing = rows.iter().filter_map(Row::required_tag);
    missing.map(|tag| (tag, Finding::Missing)).collect()
}

/// The findings in tag order.
pub fn in_tag_order(mut findings: Vec<(Tag, Finding)>) -> Vec<(Tag, Finding)> {
    findings.sort_by_key(|(tag, _)| (tag.name.to_be_bytes(), tag.number));
    findings
}
