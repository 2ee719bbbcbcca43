//! The stored SFF files.

use super::draft::{Draft, Index, Read};
use super::run;
use crate::samples::{cut, Sample};

/// W7: a header for four flows with a key of four letters.
pub fn no_reads() -> Vec<u8> {
    Draft::new(4, 4, Vec::new(), None).bytes()
}

/// W8: the same with a read of three bases, whose first base is clipped.
pub fn one_read() -> Vec<u8> {
    one(None).bytes()
}

fn one(index: Option<Index>) -> Draft {
    let mut read = Read::new(b"first", 4, &[1, 1, 1]);
    read.clips = [2, 0, 0, 0];
    Draft::new(4, 4, vec![read], index)
}

// Three reads, one of them without bases, and an index of 21 bytes behind so many of them.
fn three(behind: usize) -> Draft {
    let mut first = Read::new(b"E3MFGYR02JWQ7T", 8, &[1, 2, 0, 1, 3]);
    first.clips = [2, 4, 0, 0];
    let second = Read::new(b"E3MFGYR02F7Z9K", 8, &[]);
    let mut third = Read::new(b"E3MFGYR02G", 8, &[4, 4]);
    third.clips = [0, 0, 2, 1];
    let index = Index::new(behind, b".mft1.00 and an index");
    Draft::new(8, 4, vec![first, second, third], Some(index))
}

pub fn all() -> Vec<Sample> {
    let mut samples = whole_samples();
    samples.extend(refused_at_no_read());
    samples.extend(refused_at_a_read());
    samples.extend(a_run());
    samples
}

// A whole run, and the same cut in the middle of its third read.
fn a_run() -> [Sample; 2] {
    let draft = run::run();
    let whole = draft.bytes();
    let third = draft.layout().reads[2]..draft.layout().index.unwrap_or(whole.len());
    let shorter = third.start + third.len() / 2;
    [
        ("run.sff", whole.clone()),
        ("cut-run.sff", cut(whole, shorter)),
    ]
}

fn whole_samples() -> Vec<Sample> {
    let mut forbidden = one(None);
    forbidden.reads[0].clips[1] = 4;
    let mut followed = one_read();
    followed.extend(b"bytes behind the last read");
    vec![
        ("no-reads.sff", no_reads()),
        ("one-read.sff", one_read()),
        ("index-before-the-reads.sff", three(0).bytes()),
        ("index-between-the-reads.sff", three(1).bytes()),
        ("index-behind-the-reads.sff", three(3).bytes()),
        ("clip-above-the-bases.sff", forbidden.bytes()),
        ("bytes-behind-the-end.sff", followed),
    ]
}

fn refused_at_no_read() -> Vec<Sample> {
    let changed = |change: fn(&mut Draft)| {
        let mut draft = three(3);
        change(&mut draft);
        draft.bytes()
    };
    let behind = three(3).bytes();
    let length = behind.len();
    vec![
        ("mark-alone.sff", b".sff".to_vec()),
        ("cut-in-the-header.sff", cut(no_reads(), 39)),
        ("version-2.sff", changed(|draft| draft.version[3] = 2)),
        ("flowgram-code-2.sff", changed(|draft| draft.code = 2)),
        (
            "header-length-not-rounded.sff",
            changed(|draft| draft.header_length = 31 + 8 + 4),
        ),
        (
            "index-without-length.sff",
            changed(|draft| draft.index_length = 0),
        ),
        (
            "index-never-met.sff",
            changed(|draft| draft.index_offset += 8),
        ),
        ("cut-in-the-index.sff", cut(behind, length - 1)),
    ]
}

fn refused_at_a_read() -> Vec<Sample> {
    let mut sizes = three(1);
    sizes.reads[1].header_length += 8;
    let mut bases = three(0);
    bases.reads[2].bases = u32::MAX;
    vec![
        ("cut-in-a-read.sff", cut(one_read(), 87)),
        ("read-header-length.sff", sizes.bytes()),
        ("more-bases-than-bytes.sff", bases.bytes()),
    ]
}
