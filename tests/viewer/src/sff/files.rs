//! Small runs to be cut and damaged.

use compare::sff::draft::{Draft, Index, Read};

/// How many reads the viewer asks for at once, more than these, and some.
const AT_ONCE: usize = 65_536;
const MANY: usize = 70_000;
const SOME: usize = 11;

/// Runs to be cut: with the index before, between and behind the reads, with none, with many flows.
pub fn runs() -> Vec<Vec<u8>> {
    let index = |behind| Some(Index::new(behind, b"an index"));
    vec![
        Draft::new(8, 4, reads(8), index(0)).bytes(),
        Draft::new(8, 4, reads(8), index(2)).bytes(),
        Draft::new(8, 4, reads(8), index(3)).bytes(),
        Draft::new(8, 0, reads(8), None).bytes(),
        Draft::new(0, 4, vec![Read::new(b"no flows", 0, &[])], None).bytes(),
        many_flows(),
    ]
}

/// More reads than the viewer asks for at once, or some, with the index cut at a boundary, never met,
/// or not there, and with a read that is cut or refused.
pub fn many_reads() -> Vec<Vec<u8>> {
    let mut files: Vec<Vec<u8>> = (0..=SOME)
        .map(|behind| cut_in_the_index(SOME, behind))
        .collect();
    for behind in [AT_ONCE - 1, AT_ONCE, AT_ONCE + 1, MANY - 1, MANY] {
        files.push(cut_in_the_index(MANY, behind));
    }
    let plain = small_reads(MANY, None);
    let mut never_met = small_reads(MANY, Some(Index::new(MANY, b"an index")));
    never_met.index_offset -= 1;
    let mut refused = plain.clone();
    for index in [0, AT_ONCE - 1, AT_ONCE, MANY - 1] {
        refused.reads[index].clips[0] = 1;
    }
    for missing in [1, AT_ONCE - 1, AT_ONCE, AT_ONCE + 1] {
        let mut bytes = refused.bytes();
        bytes.truncate(refused.layout().reads[missing] + 15);
        files.push(bytes);
    }
    files.extend([plain, never_met, refused].iter().map(Draft::bytes));
    files
}

fn cut_in_the_index(count: usize, behind: usize) -> Vec<u8> {
    let draft = small_reads(count, Some(Index::new(behind, b"an index")));
    let end = draft.index_offset as usize + 3;
    draft.bytes()[..end].to_vec()
}

/// Many small reads.
pub fn small_reads(count: usize, index: Option<Index>) -> Draft {
    Draft::new(0, 0, vec![Read::new(b"", 0, &[]); count], index)
}

// Clipped on both sides, with no bases, and with nothing left between the clips.
fn reads(flows: u16) -> Vec<Read> {
    let mut first = Read::new(b"first", flows, &[1, 0, 2, 0, 1, 3]);
    first.clips = [3, 5, 0, 0];
    let second = Read::new(b"<&\"'\x01\xFF", flows, &[]);
    let mut third = Read::new(b"third", flows, &[2, 2, 2]);
    third.clips = [3, 0, 0, 2];
    third.letters = b"N<\x80".to_vec();
    vec![first, second, third]
}

/// A read of so many flows, with so many letters under each of some of them.
pub fn stretches(flows: u16, lengths: &[usize]) -> Vec<u8> {
    let mut steps = Vec::new();
    for &length in lengths {
        steps.push(3);
        steps.extend(vec![0; length - 1]);
    }
    // A step goes no further than a byte.
    let mut place: u16 = 3 * lengths.len() as u16;
    while place + 200 <= flows {
        steps.push(200);
        place += 200;
    }
    let mut read = Read::new(b"stretches", flows, &steps);
    read.clips = [2, steps.len() as u16 - 1, 0, 0];
    Draft::new(flows, 4, vec![read], None).bytes()
}

// Three rows of flows, the clipped ends of which go over a row's end.
fn many_flows() -> Vec<u8> {
    let flows = 205;
    let steps = [vec![60], vec![1; 145]].concat();
    let mut read = Read::new(b"long", flows, &steps);
    read.clips = [60, 80, 0, 0];
    let mut draft = Draft::new(flows, 4, vec![read], None);
    draft.letters[..4].copy_from_slice(b"<&\"\x07");
    draft.bytes()
}
