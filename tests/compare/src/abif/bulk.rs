//! Whole numbers at once: in every room, and of every beginning.

use super::draft::LISTED_CODES;
use super::generate::{element_size, plain_file, Content, Order};
use super::library;
use super::reader::Tag;
use crate::groups::bulk::{file_and_cuts, Bulk};
use crate::report::Group;

const TAG: Tag = Tag::new(b"ABCD", 1);
const MOST_ELEMENTS: usize = 6;
const WHOLE_NUMBER: u64 = 1;
const NOT_HANDLED: u64 = 10;
/// What the elements are made of: signs, zeros and the highest numbers among them.
const BYTES: [u8; 7] = [0x80, 0x01, 0xFF, 0xFE, 0x00, 0x7F, 0x12];

/// Up to six elements of every listed type, inside their entry and apart.
pub fn whole_numbers(group: &mut Group) {
    for code in LISTED_CODES {
        for count in 0..=MOST_ELEMENTS {
            let data = BYTES.iter().copied().cycle();
            let data = data.take(count * element_size(code)).collect();
            let items = [(TAG, Content::listed(code, data))];
            for order in [Order::DirectoryFirst, Order::DirectoryLast] {
                file_and_cuts(group, &plain_file(&items, order).bytes(), numbers_of);
            }
        }
    }
}

// The elements of a type are all whole numbers, or none is.
fn numbers_of(bytes: &[u8]) -> Bulk<'_, i64> {
    let found = library::lookup(bytes, TAG);
    Bulk {
        count: match (found.refusal, found.type_code) {
            (0, 1..=5 | 18 | 19) => Ok(found.count),
            (0, _) => Err(NOT_HANDLED),
            (refusal, _) => Err(refusal),
        },
        not_there: 12,
        width: 1,
        call: Box::new(|first, out| library::whole_numbers(bytes, TAG, first, out)),
        single: Box::new(|number| {
            let element = library::element(bytes, TAG, number);
            assert!(element.refusal != 0 || element.kind == WHOLE_NUMBER);
            (element.refusal, vec![element.whole])
        }),
    }
}
