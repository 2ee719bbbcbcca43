//! Files written by the library and by the writer, compared, and read back where accepted.

mod bounds;
mod broken;
mod contents;
mod extremes;
mod faults;
pub mod generate;
pub mod list;
mod random_lists;
mod read_back;

use super::library;
use super::writer::{self, Lent};
use crate::answers::Finished;
use crate::output::Output;
use crate::report::{Group, NamedRun};
use list::List;

pub const GROUPS: [NamedRun; 19] = [
    ("published samples", bounds::published),
    ("every type code", bounds::type_codes),
    ("small sizes", bounds::small_sizes),
    ("rooms", bounds::rooms),
    ("tags in order", bounds::tags),
    ("numbers of items", bounds::item_counts),
    ("long items", bounds::long_items),
    ("dates", contents::dates),
    ("times", contents::times),
    ("pStrings", contents::pascal_texts),
    ("cStrings", contents::closed_texts),
    ("lists of other lengths", extremes::list_lengths),
    ("parts at their bounds", extremes::parts),
    ("sizes at their bounds", extremes::sizes),
    ("totals at their bounds", extremes::totals),
    ("past 32 bits", extremes::past_32_bits),
    ("one rule broken", broken::alone),
    ("two rules broken", broken::pairs),
    ("random lists", random_lists::lists),
];

/// Compares both sides on this list and room, reads an accepted file back, and returns the refusal.
pub fn compare(group: &mut Group, list: &List, room: usize) -> u64 {
    let lent = list.clone();
    let (expected, ours) = compare_calls(group, &lent.lent(), room);
    group.check(lent == *list, ours.bytes(), || {
        "the library changed a list or the data".to_string()
    });
    if expected.refusal == 0 {
        let file = &ours.bytes()[..expected.length as usize];
        read_back::read_back(group, &list.items(), file);
    }
    expected.refusal
}

/// Sees, beside the comparison, that this is the refusal, or 0 for none.
pub fn expect(group: &mut Group, list: &List, room: usize, refusal: u64) {
    let given = compare(group, list, room);
    group.check(given == refusal, &list.data, || {
        format!("refusal {given}, expected {refusal}: room {room}, {list:?}")
    });
}

/// Compares answers and whole outputs; returns the right answer and the library's output.
pub fn compare_calls(group: &mut Group, lent: &Lent, room: usize) -> (Finished, Output) {
    group.input();
    let mut ours = Output::new(room);
    let mut plain = Output::new(room);
    let answer = library::write(lent, ours.lent());
    let expected = Finished::from(writer::write(lent, plain.lent()));
    group.check(answer == expected, ours.bytes(), || {
        let lists = Lent { data: &[], ..*lent };
        format!("room {room}: library {answer:?}, writer {expected:?}: {lists:?}")
    });
    group.check(ours == plain, ours.bytes(), || {
        let place = ours.difference(&plain);
        let lists = Lent { data: &[], ..*lent };
        format!("room {room}: outputs differ at {place:?}: {lists:?}")
    });
    let written = expected.length as usize;
    group.check(plain.is_untouched_from(written), plain.bytes(), || {
        format!("room {room}: the writer wrote past {written}")
    });
    (expected, ours)
}
