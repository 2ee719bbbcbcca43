//! Files without a fault, made for one thing each.

use super::generate::{
    all_codes, element_size, listed_data, plain_file, real_patterns, single_patterns, Content,
    Order, ORDERS,
};
use super::reader::{Tag, Type};
use super::Abif;
use crate::format::Files;
use crate::groups::whole::compare_whole;
use crate::random::Random;
use crate::report::Group;

fn numbered(contents: Vec<Content>) -> Vec<(Tag, Content)> {
    let numbers = (1..).map(|number| Tag::new(b"ABCD", number));
    numbers.zip(contents).collect()
}

pub fn small_sizes(group: &mut Group) {
    let mut random = Random::new(11);
    for code in all_codes() {
        let raw = Type::from_code(code) == Some(Type::Raw);
        let size = element_size(code);
        for length in (0..=9).chain([size, 2 * size, 3 * size]) {
            if length % size != 0 {
                continue;
            }
            for order in ORDERS {
                let content = if raw {
                    Content::raw(code, 3, 70_000, random.bytes(length))
                } else {
                    Content::listed(code, listed_data(&mut random, code, length / size))
                };
                let shorts = Content::listed(4, random.bytes(6));
                let items = numbered(vec![shorts.clone(), content, shorts]);
                compare_whole::<Abif>(group, &plain_file(&items, order));
            }
        }
    }
}

pub fn dates_and_times(group: &mut Group) {
    let mut dates = Vec::new();
    for year in [i16::MIN, -1, 0, 1, 2006, i16::MAX] {
        for month in [0, 1, 2, 11, 12, 13, 128, 255] {
            for day in [0, 1, 2, 30, 31, 32, 128, 255] {
                let [high, low] = year.to_be_bytes();
                dates.push([high, low, month, day]);
            }
        }
    }
    let mut times = Vec::new();
    for hour in [0, 1, 22, 23, 24, 128, 255] {
        for minute in [0, 58, 59, 60, 255] {
            for second in [0, 58, 59, 60, 255] {
                for hundredth in [0, 98, 99, 100, 255] {
                    times.push([hour, minute, second, hundredth]);
                }
            }
        }
    }
    quads(group, 10, &dates);
    quads(group, 11, &times);
}

// Every value as an item of its own, and in the front, the middle and the end of a longer one.
fn quads(group: &mut Group, code: i16, values: &[[u8; 4]]) {
    let last = values.len() - 1;
    for (index, value) in values.iter().enumerate() {
        let single = Content::listed(code, value.to_vec());
        let after = values[last.min(index + 1)];
        let before = values[index.saturating_sub(1)];
        let several = Content::listed(code, [before, *value, after].concat());
        let items = numbered(vec![single, several]);
        compare_whole::<Abif>(group, &plain_file(&items, Order::DirectoryLast));
    }
}

pub fn floats(group: &mut Group) {
    for at in 0..16 {
        let single = single_patterns()[4 * at..4 * at + 4].to_vec();
        let real = real_patterns()[8 * at..8 * at + 8].to_vec();
        let contents = vec![
            Content::listed(7, single.clone()),
            Content::listed(8, real.clone()),
            Content::listed(7, single.repeat(3)),
            Content::listed(8, real.repeat(3)),
        ];
        for order in ORDERS {
            compare_whole::<Abif>(group, &plain_file(&numbered(contents.clone()), order));
        }
    }
    let all = vec![
        Content::listed(7, single_patterns()),
        Content::listed(8, real_patterns()),
    ];
    compare_whole::<Abif>(group, &plain_file(&numbered(all), Order::DirectoryFirst));
}

pub fn texts(group: &mut Group) {
    let mut random = Random::new(12);
    let lengths = (0..=12_usize).chain([254, 255, 256, 257, 258, 511, 512, 513, 769]);
    for length in lengths {
        let right = length.wrapping_sub(1) as u8;
        let mut items = Vec::new();
        for first in [right, right.wrapping_add(1), right.wrapping_sub(1), 0] {
            items.push(Content::listed(18, pascal_text(length, first)));
        }
        let last = length.saturating_sub(1);
        let zeros: [&[usize]; 6] = [
            &[],
            &[last],
            &[0, last],
            &[length / 2, last],
            &[last.saturating_sub(1), last],
            &[last / 2],
        ];
        for places in zeros {
            items.push(Content::listed(19, closed_text(length, places)));
        }
        items.push(Content::listed(2, closed_text(length, &[last])));
        for item in items {
            let order = random.pick(&ORDERS);
            compare_whole::<Abif>(group, &plain_file(&numbered(vec![item]), order));
        }
    }
}

fn pascal_text(length: usize, first: u8) -> Vec<u8> {
    let mut data = vec![b'a'; length];
    if let Some(byte) = data.first_mut() {
        *byte = first;
    }
    data
}

// Letters with zeros at these places.
fn closed_text(length: usize, zeros: &[usize]) -> Vec<u8> {
    (0..length)
        .map(|place| if zeros.contains(&place) { 0 } else { b'a' })
        .collect()
}

pub fn long_directories(group: &mut Group) {
    let mut random = Random::new(13);
    for count in [11, 12, 50, 130, 255, 256, 257, 500, 998, 999, 999, 999] {
        compare_whole::<Abif>(group, &Abif::long_file(&mut random, count));
    }
}

pub fn long_items(group: &mut Group) {
    let mut random = Random::new(14);
    for code in [1, 2, 3, 4, 5, 7, 8, 10, 11, 12, 13, 18, 19] {
        for count in [1000, 10_000] {
            let data = listed_data(&mut random, code, count);
            let items = numbered(vec![Content::listed(code, data)]);
            compare_whole::<Abif>(group, &plain_file(&items, Order::DirectoryLast));
        }
    }
}
