//! What the test groups need to know of a format.

use crate::answers::Verdict;
use crate::random::Random;
use crate::report::NamedRun;
use std::fmt::Debug;
use std::ops::Range;

pub const CUT_SHORT: u64 = 1;

/// A call other than judging with its arguments, asked of the library and of the reader alike.
pub trait Question: Debug {
    type Answer: Answer;

    fn ask_library(&self, bytes: &[u8]) -> Self::Answer;

    fn ask_reader(&self, bytes: &[u8]) -> Self::Answer;
}

pub trait Answer: Debug + PartialEq {
    fn refusal(&self) -> u64;

    /// Whether the lent output, where there is one, holds what it held before the call.
    fn is_untouched(&self) -> bool {
        true
    }

    /// The refusal for bytes cut short, with nothing of the lent output changed.
    fn is_cut_short(&self) -> bool {
        self.refusal() == CUT_SHORT && self.is_untouched()
    }
}

impl Answer for Verdict {
    fn refusal(&self) -> u64 {
        self.refusal
    }
}

/// A file before it is written out, with every field open to change.
pub trait Draft: Clone {
    fn bytes(&self) -> Vec<u8>;

    /// The judgement that a whole file built from this draft gets.
    fn verdict(&self) -> Verdict;

    /// Where the fields of its header, entries and reads stand.
    fn fields(&self) -> Vec<Range<usize>>;
}

/// Whole files of a format.
pub trait Files {
    type Draft: Draft;

    /// A file of a random shape with about the number of entries or reads that `most` allows.
    fn random_file(random: &mut Random, most: usize) -> Self::Draft;

    /// A file with this many entries or reads.
    fn long_file(random: &mut Random, count: usize) -> Self::Draft;
}

/// Changes that break the rules of a format, or come close to it.
pub trait Damage: Files {
    type Change: Copy;

    /// Small whole files of different shapes that the changes are made to.
    fn bases() -> Vec<Self::Draft>;

    fn apply(change: Self::Change, draft: &mut Self::Draft);

    /// Every single change of the fields and of the length, at and around each bound.
    fn all_changes(draft: &Self::Draft) -> Vec<Self::Change>;

    /// One change for each rule, which surely breaks it; pairs of these show the order of checks.
    fn certain_faults(draft: &Self::Draft) -> Vec<Self::Change>;

    /// Random bytes behind a beginning of a sound header.
    fn random_tail(random: &mut Random) -> Vec<u8>;
}

/// What is asked about the files of a format.
pub trait Calls: Files {
    type Question: Question;

    /// Every call on the file, with arguments from the file, from its draft, and past both.
    fn questions(bytes: &[u8], draft: Option<&Self::Draft>) -> Vec<Self::Question>;
}

pub trait Format: Calls + Damage {
    const NAME: &'static str;
    const MARK: [u8; 4];
    /// The groups of its own; those that every format has come beside them.
    const READING: &'static [NamedRun];
    const WRITING: &'static [NamedRun];

    /// A small whole file.
    fn sample() -> Vec<u8>;

    fn library_verdict(bytes: &[u8]) -> Verdict;

    fn reader_verdict(bytes: &[u8]) -> Verdict;
}
