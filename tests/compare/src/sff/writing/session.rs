//! The calls that write a file, made to the library and to the writer side by side.

use super::read::Read;
use super::read_back::read_back;
use crate::answers::Finished;
use crate::output::Output;
use crate::report::Group;
use crate::sff::answers::State;
use crate::sff::{library, writer};

/// Up to this room all of the outputs is compared after each call, else only at the end.
const MOST_COMPARED: usize = 1 << 15;

/// Both sides' outputs.
pub struct Outputs {
    ours: Output,
    plain: Output,
}

impl Outputs {
    pub fn new(room: usize) -> Outputs {
        Outputs {
            ours: Output::new(room),
            plain: Output::new(room),
        }
    }

    pub fn room(&self) -> usize {
        self.ours.room()
    }

    /// The library's output, its guard included.
    pub fn bytes(&self) -> &[u8] {
        self.ours.bytes()
    }

    fn is_small(&self) -> bool {
        self.room() <= MOST_COMPARED
    }

    fn compare(&self, group: &mut Group, call: &str) {
        group.check(self.ours == self.plain, self.ours.bytes(), || {
            let place = self.ours.difference(&self.plain);
            format!("{call}: outputs differ at {place:?}")
        });
    }
}

/// Begins a file on both sides and returns the state that is right.
pub fn begin(group: &mut Group, reads: u32, letters: [&[u8]; 2], outputs: &mut Outputs) -> State {
    let [flows, key] = letters;
    let lent = [flows.to_vec(), key.to_vec()];
    let answer = library::begin(reads, &lent[0], &lent[1], outputs.ours.lent());
    let written = writer::begin(reads, flows, key, outputs.plain.lent());
    let expected = State::default().after(written);
    group.check(answer == expected, &[], || {
        let counts = [flows.len(), key.len(), outputs.room()];
        format!(
            "begin {reads}, letters and room {counts:?}: library {answer:?}, writer {expected:?}"
        )
    });
    group.check(lent == letters, &[], || {
        "the library changed the letters".to_string()
    });
    let untouched = expected.at as usize;
    let past = outputs.ours.is_untouched_from(untouched);
    group.check(past, outputs.ours.bytes(), || {
        format!("begin wrote past {untouched}")
    });
    outputs.compare(group, "begin");
    expected
}

/// Adds a read on both sides and returns the state that is right.
pub fn add(group: &mut Group, state: State, read: &Read, outputs: &mut Outputs) -> State {
    let lent = read.clone();
    let before = outputs.is_small().then(|| outputs.ours.clone());
    let answer = library::add(state, &lent.lent(), outputs.ours.lent());
    let expected = state.after(writer::add(state, &read.lent(), outputs.plain.lent()));
    group.check(answer == expected, outputs.ours.bytes(), || {
        format!("add to {state:?}: library {answer:?}, writer {expected:?}: {read:?}")
    });
    group.check(lent == *read, outputs.ours.bytes(), || {
        "the library changed the read".to_string()
    });
    if let Some(before) = before {
        outputs.compare(group, "add");
        let built = built(state, read, expected.refusal, before.bytes());
        let after = outputs.ours.bytes();
        group.check(after == built, after, || {
            format!("add to {state:?}: {expected:?}, but not the bytes built from {read:?}")
        });
    }
    expected
}

// Nothing but the read's own bytes is changed, and nothing at all by a refused call.
fn built(state: State, read: &Read, refusal: u64, before: &[u8]) -> Vec<u8> {
    let mut bytes = before.to_vec();
    if refusal == 0 {
        let place = state.at as usize;
        let read = read.draft().bytes();
        bytes[place..place + read.len()].copy_from_slice(&read);
    }
    bytes
}

/// Finishes a file on both sides and returns the answer that is right.
pub fn finish(group: &mut Group, state: State) -> Finished {
    let answer = library::finish(state);
    let expected = Finished::from(writer::finish(state));
    group.check(answer == expected, &[], || {
        format!("finish {state:?}: library {answer:?}, writer {expected:?}")
    });
    expected
}

/// A file being written, with what was accepted so far.
pub struct Session {
    pub outputs: Outputs,
    pub state: State,
    is_begun: bool,
    letters: [Vec<u8>; 2],
    accepted: Vec<Read>,
}

impl Session {
    pub fn begin(group: &mut Group, reads: u32, letters: [&[u8]; 2], room: usize) -> Session {
        group.input();
        let mut outputs = Outputs::new(room);
        let state = begin(group, reads, letters, &mut outputs);
        Session {
            outputs,
            state,
            is_begun: state.refusal == 0,
            letters: letters.map(<[u8]>::to_vec),
            accepted: Vec::new(),
        }
    }

    /// Adds a read and returns the refusal, after which the session goes on.
    pub fn add(&mut self, group: &mut Group, read: &Read) -> u64 {
        self.state = add(group, self.state, read, &mut self.outputs);
        if self.state.refusal == 0 {
            self.accepted.push(read.clone());
        }
        self.state.refusal
    }

    /// Adds a read and sees that this is the refusal, or 0 for none.
    pub fn expect(&mut self, group: &mut Group, read: &Read, refusal: u64) {
        let given = self.add(group, read);
        group.check(given == refusal, self.outputs.ours.bytes(), || {
            format!(
                "refusal {given}, expected {refusal}: {:?}, {read:?}",
                self.state
            )
        });
    }

    /// Finishes the file, reads it back where that is accepted, and returns the refusal.
    pub fn finish(&self, group: &mut Group) -> u64 {
        let finished = finish(group, self.state);
        self.outputs.compare(group, "finish");
        if self.is_begun && finished.refusal == 0 {
            let (file, rest) = self.outputs.ours.bytes().split_at(finished.length as usize);
            read_back(group, &self.letters, &self.accepted, file);
            let past = self.outputs.ours.is_untouched_from(file.len());
            group.check(past, rest, || {
                "bytes behind the file were written".to_string()
            });
        }
        finished.refusal
    }

    /// Finishes the file and sees that this is the refusal, or 0 for none.
    pub fn expect_finish(&self, group: &mut Group, refusal: u64) {
        let given = self.finish(group);
        group.check(given == refusal, self.outputs.ours.bytes(), || {
            format!(
                "finish: refusal {given}, expected {refusal}: {:?}",
                self.state
            )
        });
    }
}
