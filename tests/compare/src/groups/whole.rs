//! Files without a fault, in any format.

use super::compare_file;
use crate::format::{Draft, Format};
use crate::random::Random;
use crate::report::Group;

const FILES: usize = 20_000;
const MOST_ENTRIES: usize = 12;

/// Compares every call and sees that the file is judged as it was built to be.
pub fn compare_whole<F: Format>(group: &mut Group, draft: &F::Draft) {
    let bytes = draft.bytes();
    let judged = F::reader_verdict(&bytes);
    let built_for = draft.verdict();
    group.check(judged == built_for, &bytes, || {
        format!("reader's judgement {judged:?}, built for {built_for:?}")
    });
    compare_file::<F>(group, &bytes, None);
}

pub fn random_files<F: Format>(group: &mut Group) {
    let mut random = Random::new(15);
    for _ in 0..FILES {
        compare_whole::<F>(group, &F::random_file(&mut random, MOST_ENTRIES));
    }
}
