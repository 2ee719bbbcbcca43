//! The library's SFF functions behind safe calls.

use super::answers::{Flow, Header, Read, State};
use super::writer::LentRead;
use crate::answers::{Finished, Listed, Verdict};

extern "C" {
    fn jt_sff_judge(bytes: *const u8, len: usize) -> Verdict;
    fn jt_sff_header(bytes: *const u8, len: usize) -> Header;
    fn jt_sff_read(bytes: *const u8, len: usize, k: u64) -> Read;
    fn jt_sff_flow_of_base(bytes: *const u8, len: usize, k: u64, base: u64) -> Flow;
    fn jt_sff_reads(bytes: *const u8, len: usize, first: u64, out: *mut u64, room: usize)
        -> Listed;
    fn jt_sff_begin(
        reads: u32,
        flow_letters: *const u8,
        flow_count: usize,
        key_letters: *const u8,
        key_length: usize,
        out: *mut u8,
        room: usize,
    ) -> State;
    fn jt_sff_add(
        state: State,
        name: *const u8,
        name_length: usize,
        flows: *const u16,
        flow_count: usize,
        steps: *const u8,
        step_count: usize,
        letters: *const u8,
        letter_count: usize,
        qualities: *const u8,
        quality_count: usize,
        quality_left: u64,
        quality_right: u64,
        adapter_left: u64,
        adapter_right: u64,
        out: *mut u8,
        room: usize,
    ) -> State;
    fn jt_sff_finish(state: State) -> Finished;
}

pub fn judge(bytes: &[u8]) -> Verdict {
    // SAFETY: the pointer and the length are those of one slice.
    unsafe { jt_sff_judge(bytes.as_ptr(), bytes.len()) }
}

pub fn header(bytes: &[u8]) -> Header {
    // SAFETY: the pointer and the length are those of one slice.
    unsafe { jt_sff_header(bytes.as_ptr(), bytes.len()) }
}

pub fn read(bytes: &[u8], number: u64) -> Read {
    // SAFETY: the pointer and the length are those of one slice.
    unsafe { jt_sff_read(bytes.as_ptr(), bytes.len(), number) }
}

pub fn flow_of_base(bytes: &[u8], number: u64, base: u64) -> Flow {
    // SAFETY: the pointer and the length are those of one slice.
    unsafe { jt_sff_flow_of_base(bytes.as_ptr(), bytes.len(), number, base) }
}

pub fn reads(bytes: &[u8], first: u64, out: &mut [u64]) -> Listed {
    // SAFETY: each pointer and the length behind it are those of one slice.
    unsafe {
        jt_sff_reads(
            bytes.as_ptr(),
            bytes.len(),
            first,
            out.as_mut_ptr(),
            out.len(),
        )
    }
}

pub fn begin(reads: u32, flow_letters: &[u8], key_letters: &[u8], out: &mut [u8]) -> State {
    // SAFETY: each pointer and the length behind it are those of one slice.
    unsafe {
        jt_sff_begin(
            reads,
            flow_letters.as_ptr(),
            flow_letters.len(),
            key_letters.as_ptr(),
            key_letters.len(),
            out.as_mut_ptr(),
            out.len(),
        )
    }
}

pub fn add(state: State, read: &LentRead, out: &mut [u8]) -> State {
    let [quality_left, quality_right, adapter_left, adapter_right] = read.clips;
    // SAFETY: each pointer and the length behind it are those of one slice.
    unsafe {
        jt_sff_add(
            state,
            read.name.as_ptr(),
            read.name.len(),
            read.flows.as_ptr(),
            read.flows.len(),
            read.steps.as_ptr(),
            read.steps.len(),
            read.letters.as_ptr(),
            read.letters.len(),
            read.qualities.as_ptr(),
            read.qualities.len(),
            quality_left,
            quality_right,
            adapter_left,
            adapter_right,
            out.as_mut_ptr(),
            out.len(),
        )
    }
}

pub fn finish(state: State) -> Finished {
    // SAFETY: the state is passed by value.
    unsafe { jt_sff_finish(state) }
}
