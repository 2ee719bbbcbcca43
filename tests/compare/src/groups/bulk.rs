//! The one rule of bulk calls, for any of them, by the library's own single calls.

use crate::answers::{Listed, Untouched, Written};
use crate::arguments::bulk_rooms;
use crate::report::Group;
use std::fmt::Debug;

const FORBIDDEN_VALUE: u64 = 11;
const OUTPUT_TOO_SMALL: u64 = 13;

/// A call from this number on, into this output.
type Call<'a, N> = Box<dyn Fn(u64, &mut [N]) -> Listed + 'a>;

/// A bulk call on one file, and what it is due to answer by.
pub struct Bulk<'a, N> {
    /// How many items there are, or the refusal that comes before all of them.
    pub count: Result<u64, u64>,
    /// The refusal of a number that is not there.
    pub not_there: u64,
    /// How many numbers an item has.
    pub width: usize,
    pub call: Call<'a, N>,
    /// The single call's refusal, and its answer as the bulk call writes it.
    pub single: Box<dyn Fn(u64) -> (u64, Vec<N>) + 'a>,
}

/// The call on the file in every room, and on every beginning of it in the rooms that count.
pub fn file_and_cuts<N: Untouched + Copy + Debug>(
    group: &mut Group,
    file: &[u8],
    bulk_of: impl for<'a> Fn(&'a [u8]) -> Bulk<'a, N>,
) {
    let on_the_file = bulk_of(file);
    let count = on_the_file.count.unwrap_or(0);
    let width = on_the_file.width;
    let rooms: Vec<usize> = (0..=width * (count as usize + 1) + 1).collect();
    on_the_file.in_rooms(group, file, count, &rooms);
    let rooms = bulk_rooms(count as usize, width);
    for length in 0..file.len() {
        let cut = file[..length].to_vec().into_boxed_slice();
        bulk_of(&cut).in_rooms(group, &cut, count, &rooms);
    }
}

impl<N: Untouched + Copy + Debug> Bulk<'_, N> {
    fn in_rooms(&self, group: &mut Group, bytes: &[u8], count: u64, rooms: &[usize]) {
        group.input();
        for first in 0..=count + 2 {
            for &room in rooms {
                let answer = Written::by(room, |out| (self.call)(first, out));
                let due = Written::by(room, |out| self.due(first, out));
                group.check(answer == due, bytes, || {
                    format!("from {first} on, room {room}: {answer:?}, by single calls {due:?}")
                });
            }
        }
    }

    // As many items as are left and fit; an item's refusal refuses all, but for that of its contents.
    fn due(&self, first: u64, out: &mut [N]) -> Listed {
        let refused = |refusal| Listed { refusal, count: 0 };
        let left = match self.count {
            Err(refusal) => return refused(refusal),
            Ok(count) if first == 0 || first > count => return refused(self.not_there),
            Ok(count) => count + 1 - first,
        };
        let count = left.min((out.len() / self.width) as u64);
        if count == 0 {
            return refused(OUTPUT_TOO_SMALL);
        }
        let items: Vec<(u64, Vec<N>)> = (first..first + count).map(&self.single).collect();
        let mut refusals = items.iter().map(|(refusal, _)| *refusal);
        if let Some(refusal) = refusals.find(|refusal| ![0, FORBIDDEN_VALUE].contains(refusal)) {
            return refused(refusal);
        }
        for (slot, (_, numbers)) in out.chunks_exact_mut(self.width).zip(&items) {
            slot.copy_from_slice(numbers);
        }
        Listed { refusal: 0, count }
    }
}
