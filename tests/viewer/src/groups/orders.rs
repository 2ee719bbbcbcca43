//! Base orders that are one, and others.

use crate::abif::files::ordered;
use crate::drawing::{check_all, Input, Wish, PLAIN};
use compare::abif::generate::Content;
use compare::report::Group;

const BASES: [u8; 4] = *b"ACGT";
/// Almost orders, of each of which one letter is wrong, or one too many or too few.
const WRONG: [&[u8]; 10] = [
    b"GATG", b"AAAA", b"gatc", b"GATc", b"GATN", b"GATU", b"GATCA", b"GAT", b"", b"\xC7ATC",
];
const CHAR: i16 = 2;
/// Types whose elements are whole numbers, texts and others.
const TYPES: [i16; 8] = [1, 3, 4, 5, 7, 10, 13, 19];

pub fn orders(group: &mut Group) {
    let mut inputs = Vec::new();
    for letters in all_orders() {
        inputs.push(input(Content::listed(CHAR, letters)));
    }
    for letters in WRONG {
        inputs.push(input(Content::listed(CHAR, letters.to_vec())));
    }
    for code in TYPES {
        inputs.push(input(Content::listed(code, b"GATC".to_vec())));
        inputs.push(input(Content::listed(code, b"\0G\0A\0T\0C".to_vec())));
        inputs.push(input(Content::listed(
            code,
            b"\x01G\x01A\x01T\x01C".to_vec(),
        )));
    }
    inputs.push(input(Content::listed(18, b"\x04GATC".to_vec())));
    inputs.push(input(Content::listed(18, b"GATC".to_vec())));
    inputs.push(input(Content::raw(1024, 1, 4, b"GATC".to_vec())));
    check_all(group, &inputs, PLAIN);
    check_all(group, &inputs, Wish::raw());
}

fn input(order: Content) -> Input {
    let name = format!("base order {order:?}");
    Input::new(name, ordered(order))
}

// Letter by letter from those that are left.
fn all_orders() -> Vec<Vec<u8>> {
    let mut orders = vec![Vec::new()];
    for _ in BASES {
        orders = orders.iter().flat_map(|order| longer(order)).collect();
    }
    orders
}

fn longer(order: &[u8]) -> Vec<Vec<u8>> {
    let left = BASES.iter().filter(|base| !order.contains(base));
    left.map(|&base| [order, &[base]].concat()).collect()
}
