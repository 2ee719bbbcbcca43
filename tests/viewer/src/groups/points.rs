//! Rows of few points and of very many, more rows than are drawn, and letters that are too close.

use crate::abif::files::{lettered, lettered_channels, rising, run, Fragments};
use crate::apart::check_apart;
use crate::drawing::{check_all, check_all_with, Input, Wish, PLAIN};
use crate::sff::files::stretches;
use compare::abif::generate::Order;
use compare::report::Group;

const POINTS: [u64; 14] = [
    50,
    51,
    333,
    499,
    501,
    999,
    1000,
    1001,
    1003,
    1999,
    2500,
    20_000,
    123_457,
    1_000_000_000,
];

pub fn points(group: &mut Group) {
    let inputs = [
        Input::new("a run", run([2600, 2101, 60, 2501], Order::DirectoryFirst)),
        Input::new(
            "a run of one point",
            run([1, 1, 1, 1], Order::DirectoryFirst),
        ),
        Input::new(
            "a run of two points",
            run([2, 1, 2, 1], Order::DirectoryFirst),
        ),
        Input::new(
            "a long run",
            run([30_000, 29_000, 2, 12_003], Order::DirectoryLast),
        ),
        Input::new(
            "fragments",
            Fragments::new(5, false, 2700, 9000).bytes(Order::DirectoryFirst),
        ),
    ];
    for points in POINTS {
        check_all_with(group, &inputs, Wish::points(points), check_apart);
    }
    many_rows(group);
    crowded(group);
    many_letters(group);
}

// Around the last row that is drawn, with letters on both sides of it.
fn many_rows(group: &mut Group) {
    let inputs: Vec<Input> = [9999, 10_000, 10_001, 10_002, 10_003, 10_050, 10_052, 12_345]
        .into_iter()
        .map(|length| {
            let lengths = [length, length - 1, 10_001, 9_000];
            let name = format!("channels of {lengths:?} points");
            Input::new(name, run(lengths, Order::DirectoryFirst))
        })
        .collect();
    check_all(group, &inputs, Wish::points(50));
    last_letters(group);
    let fragments: Vec<Input> = [(0, 12_000), (9_900, 12_000), (10_060, 12_000)]
        .into_iter()
        .map(|(front, length)| {
            let run = Fragments::new(5, true, front, length);
            let name = format!("fragments, {front} of {length} flat");
            Input::new(name, run.bytes(Order::DirectoryFirst))
        })
        .collect();
    check_all(group, &fragments, Wish::points(50));
    // What is left out counts for no scale.
    let rising = Input::new("a rise behind the last row", rising(12_000, 10_000));
    check_all(group, &[rising], Wish::points(50));
    let long = Input::new(
        "a very long run",
        run([101_003, 9, 9, 9], Order::DirectoryFirst),
    );
    check_all(group, &[long], PLAIN);
}

// Each base at each of the points around the end of the last row that is drawn, over channels that end
// around it.
fn last_letters(group: &mut Group) {
    let places: Vec<i16> = (9_997..10_006).flat_map(|place| [place; 4]).collect();
    let lengths = [9_999, 10_000, 10_001, 10_002, 10_003, 11_000];
    let mut inputs = Vec::new();
    for other in lengths {
        let lengths = [12_000, other, 10_001, 10_000];
        let name = format!("letters over channels of {lengths:?} points");
        inputs.push(Input::new(name, lettered_channels(&lengths, &places)));
        let lengths = [other; 4];
        let name = format!("letters over channels of {lengths:?} points");
        inputs.push(Input::new(name, lettered_channels(&lengths, &places)));
    }
    check_all(group, &inputs, Wish::points(50));
}

// As many letters in a row as are drawn, one more, and many at one place.
fn crowded(group: &mut Group) {
    let mut inputs = Vec::new();
    for count in [249, 250, 251, 499, 500] {
        let places: Vec<i16> = (0..count).chain([600, 700]).collect();
        let name = format!("{count} letters in a row");
        inputs.push(Input::new(name, lettered(1100, &places)));
    }
    let places = [vec![30; 251], vec![501; 250]].concat();
    inputs.push(Input::new("letters at one place", lettered(1100, &places)));
    check_all(group, &inputs, PLAIN);
    check_all(group, &inputs, Wish::points(1050));
    check_all(group, &inputs, Wish::points(100));
}

// More letters under a flow than are drawn, and more flows.
fn many_letters(group: &mut Group) {
    let inputs = [
        Input::new("21 letters", stretches(250, &[1, 19, 20, 21, 40, 1200])),
        Input::new("20,000 flows", stretches(20_000, &[1, 21])),
        Input::new("20,001 flows", stretches(20_001, &[1, 21])),
        Input::new("65,000 flows", stretches(65_000, &[1, 21])),
    ];
    check_all(group, &inputs, PLAIN);
}
