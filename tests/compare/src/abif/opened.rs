//! Opened files: every call with the right place and count, and with wrong ones.

use super::questions::{asked_tags, calls, stated, wrong_ones};
use super::reader::{Carried, Tag};
use super::{library, Abif};
use crate::damage::random_changes;
use crate::format::{Answer, Damage, Files};
use crate::random::Random;
use crate::report::Group;
use crate::tally::Tally;

const FILES: usize = 1000;
/// What a call may be refused with where its place and count are right; 4 comes before each.
const LATER_REFUSALS: [u64; 9] = [1, 6, 7, 8, 9, 10, 11, 12, 13];
const LEAST_OF_EACH: u64 = 100;

/// An opened file answers as its bytes alone do, and with another place or count by 4; a file that
/// cannot be opened is refused as opening is, whatever place and count come with it.
pub fn files(group: &mut Group) {
    let mut random = Random::new(18);
    let mut tally = Tally::default();
    let mut drafts = Abif::bases();
    drafts.push(Abif::long_file(&mut random, 999));
    drafts.extend((0..FILES).map(|_| random_changes::<Abif>(&mut random)));
    for draft in drafts {
        opened(group, &draft.bytes(), &draft.tags(), &mut tally);
    }
    tally.report(group, &LATER_REFUSALS, LEAST_OF_EACH);
}

fn opened(group: &mut Group, bytes: &[u8], tags: &[Tag], tally: &mut Tally) {
    group.input();
    let opening = library::open(bytes);
    let right = match opening.refusal {
        0 => Carried {
            place: opening.place,
            count: opening.count,
        },
        _ => stated(bytes),
    };
    let due = match opening.refusal {
        0 => 4,
        refusal => refusal,
    };
    let wrong = wrong_ones(right);
    for call in calls(bytes, &asked_tags(bytes, tags)) {
        let plain = call.ask_library(bytes);
        let answer = call.ask_library_opened(bytes, right);
        group.check(answer == plain, bytes, || {
            format!("{call:?}, {right:?}: {answer:?}, of the bytes alone {plain:?}")
        });
        for &other in &wrong {
            let answer = call.ask_library_opened(bytes, other);
            group.check(answer == call.refused(due), bytes, || {
                format!("{call:?}, {other:?}: {answer:?}, refusal {due} is due")
            });
        }
        if opening.refusal == 0 {
            tally.add(plain.refusal());
        }
    }
}
