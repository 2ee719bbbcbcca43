//! Whole files with bytes behind their end, in any format.

use super::compare_file;
use crate::format::{Draft, Format, Question};
use crate::random::Random;
use crate::report::Group;

/// How many bytes stand behind a file.
pub const LENGTHS: [usize; 5] = [0, 1, 7, 8, 3000];
const FILES: usize = 200;
const MOST_ENTRIES: usize = 8;

pub fn followed_files<F: Format>(group: &mut Group) {
    let mut random = Random::new(17);
    let mut drafts = F::bases();
    drafts.extend((0..FILES).map(|_| F::random_file(&mut random, MOST_ENTRIES)));
    for draft in &drafts {
        for length in LENGTHS {
            followed::<F>(group, draft, &vec![0; length]);
            followed::<F>(group, draft, &random.bytes(length));
        }
    }
}

// Judging tells these bytes as more of the tail; no other call sees them.
fn followed<F: Format>(group: &mut Group, draft: &F::Draft, behind: &[u8]) {
    let file = draft.bytes();
    let longer = [&file, behind].concat();
    let mut due = draft.verdict();
    due.tail += behind.len() as u64;
    let judged = F::library_verdict(&longer);
    group.check(judged == due, &longer, || {
        format!("judged {judged:?}, built for {due:?}")
    });
    compare_file::<F>(group, &longer, Some(draft));
    for question in F::questions(&file, Some(draft)) {
        let answers = [question.ask_library(&longer), question.ask_library(&file)];
        group.check(answers[0] == answers[1], &longer, || {
            format!("{question:?}: followed and not: {answers:?}")
        });
    }
}
