//! Lists with one rule broken, and with two.

use super::faults::{all_faults, Fault, FIELDS};
use super::generate::sound_data;
use super::list::List;
use super::{compare, expect};
use crate::abif::generate::Content;
use crate::abif::reader::Tag;
use crate::random::Random;
use crate::report::Group;

// Small sound lists of different shapes that the changes are made to.
fn bases() -> Vec<List> {
    let mut random = Random::new(62);
    let mut content = |code, count| Content::listed(code, sound_data(&mut random, code, count));
    let shorts = content(4, 2);
    let longer = content(4, 3);
    let date = content(10, 1);
    let dates = content(10, 3);
    let time = content(11, 2);
    let text = content(18, 7);
    let closed = content(19, 6);
    let user = content(1024, 5);
    let thumb = content(12, 1);
    let empty = content(8, 0);
    vec![
        List::numbered(vec![shorts.clone()]),
        List::numbered(vec![longer.clone(), date.clone()]),
        List::numbered(vec![dates, text, closed.clone()]),
        List::numbered(vec![closed, user, time]),
        List::numbered(vec![thumb, empty, shorts, longer, date]),
    ]
}

/// Every single change, at and around each bound, with room enough.
pub fn alone(group: &mut Group) {
    for base in bases() {
        for fault in all_faults(&base) {
            let mut list = base.clone();
            fault.apply(&mut list);
            compare(group, &list, base.file_length() + 64);
        }
    }
}

/// A change that surely breaks one rule, that rule's place in the order of checks, its refusal.
#[derive(Clone, Copy, Debug)]
struct Certain {
    fault: Option<Fault>,
    room: Option<usize>,
    rank: (usize, usize),
    refusal: u64,
}

impl Certain {
    fn new(fault: Fault, rank: (usize, usize), refusal: u64) -> Certain {
        Certain {
            fault: Some(fault),
            room: None,
            rank,
            refusal,
        }
    }
}

// Ranks: the lists' lengths at 0, item i at i + 1, what comes after all items behind them.
fn certain_faults(list: &List) -> Vec<Certain> {
    let count = list.count();
    let mut faults: Vec<Certain> = FIELDS
        .iter()
        .map(|&field| Certain::new(Fault::Resize(field, count - 1), (0, 0), 9))
        .collect();
    for index in 0..count {
        faults.extend(certain_item_faults(list, index));
    }
    faults.push(Certain {
        fault: None,
        room: Some(list.file_length() - 1),
        rank: (count + 1, 0),
        refusal: 13,
    });
    faults
}

fn certain_item_faults(list: &List, index: usize) -> Vec<Certain> {
    let item = index + 1;
    let past = list.data.len() as u64 + 1;
    let counted = list.counts[index] + 1;
    let mut faults = vec![
        Certain::new(Fault::Start(index, past), (item, 0), 9),
        Certain::new(Fault::Length(index, u64::MAX), (item, 0), 9),
        Certain::new(Fault::Type(index, 1023), (item, 1), 10),
        Certain::new(Fault::Type(index, 6), (item, 1), 10),
        Certain::new(Fault::Type(index, -1), (item, 1), 10),
        Certain::new(Fault::Count(index, counted), (item, 2), 9),
        Certain::new(Fault::Count(index, u32::MAX), (item, 2), 9),
    ];
    let forbidden = match list.types[index] {
        10 => Some((2, 13)),
        11 => Some((0, 24)),
        18 => Some((0, 255)),
        19 => Some((0, 0)),
        _ => None,
    };
    if let Some((place, byte)) = forbidden {
        let fault = Fault::Byte(index, place, byte);
        faults.push(Certain::new(fault, (item, 3), 11));
    }
    if index > 0 {
        let fault = Fault::Tag(index, list.tag(index - 1));
        faults.push(Certain::new(fault, (item, 4), 14));
        let low = Fault::Tag(index, Tag::new(b"\0\0\0\0", i32::MIN));
        faults.push(Certain::new(low, (item, 4), 14));
    }
    faults
}

/// Of two broken rules the first in the order of checks is told, in one item and in two.
pub fn pairs(group: &mut Group) {
    for base in bases() {
        let faults = certain_faults(&base);
        for (index, first) in faults.iter().enumerate() {
            for second in &faults[index..] {
                broken(group, &base, [*first, *second]);
                broken(group, &base, [*second, *first]);
            }
        }
    }
}

// A list is cut last, because the other changes need their item's fields.
fn broken(group: &mut Group, base: &List, both: [Certain; 2]) {
    let mut list = base.clone();
    let mut faults: Vec<Fault> = both.iter().filter_map(|certain| certain.fault).collect();
    faults.sort_by_key(|fault| matches!(fault, Fault::Resize(..)));
    for fault in faults {
        fault.apply(&mut list);
    }
    let rooms = both.iter().filter_map(|certain| certain.room);
    let room = rooms.min().unwrap_or(base.file_length());
    let told = both.iter().min_by_key(|certain| certain.rank);
    expect(
        group,
        &list,
        room,
        told.map_or(0, |certain| certain.refusal),
    );
}
