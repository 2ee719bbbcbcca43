//! Reads at once: in every room, with contents that are refused, and of every beginning.

use super::answers::READ_NUMBERS;
use super::draft::{Draft, Index, Read};
use super::library;
use crate::groups::bulk::{file_and_cuts, Bulk};
use crate::report::Group;

const FLOWS: u16 = 4;
const MOST_READS: usize = 3;
/// What may be wrong with the contents of a read of three bases, and what is right.
const CONTENTS: [fn(&mut Read); 5] = [
    |_| {},
    |read| read.clips[1] = 4,
    |read| read.clips[2] = u16::MAX,
    |read| read.steps[0] = 0,
    |read| read.steps[2] = FLOWS as u8,
];

/// Up to three reads, each in turn with every fault, and the index at every boundary or nowhere.
pub fn reads(group: &mut Group) {
    for count in 0..=MOST_READS {
        for place in 0..count.max(1) {
            for change in CONTENTS {
                for behind in (0..=count).map(Some).chain([None]) {
                    let mut reads = vec![Read::new(b"read", FLOWS, &[1, 0, 2]); count];
                    reads.iter_mut().skip(place).take(1).for_each(change);
                    let index = behind.map(|behind| Index::new(behind, b"an index"));
                    let file = Draft::new(FLOWS, 4, reads, index).bytes();
                    file_and_cuts(group, &file, reads_of);
                }
            }
        }
    }
}

fn reads_of(bytes: &[u8]) -> Bulk<'_, u64> {
    let header = library::header(bytes);
    Bulk {
        count: match header.refusal {
            0 => Ok(header.reads),
            refusal => Err(refusal),
        },
        not_there: 7,
        width: READ_NUMBERS,
        call: Box::new(|first, out| library::reads(bytes, first, out)),
        single: Box::new(|number| {
            let read = library::read(bytes, number);
            (read.refusal, read.numbers().to_vec())
        }),
    }
}
