//! Dates, times and texts at the bounds of what their types allow.

use super::expect;
use super::list::List;
use crate::abif::generate::Content;
use crate::report::Group;

const ROOM: usize = 1200;
const DATE: [u8; 4] = [0x07, 0xD6, 2, 30];
const TIME: [u8; 4] = [23, 59, 0, 99];

// The element alone, and in the front, the middle and the end of an item of sound ones.
fn elements(group: &mut Group, code: i16, element: [u8; 4], sound: [u8; 4], allowed: bool) {
    let refusal = if allowed { 0 } else { 11 };
    for place in 0..4 {
        let mut several = [sound; 3];
        let data = match several.get_mut(place) {
            Some(slot) => {
                *slot = element;
                several.concat()
            }
            None => element.to_vec(),
        };
        let list = List::numbered(vec![Content::listed(code, data)]);
        expect(group, &list, ROOM, refusal);
    }
}

pub fn dates(group: &mut Group) {
    for month in 0..=255 {
        for day in [0, 1, 15, 31, 32, 128, 255] {
            let allowed = (1..=12).contains(&month) && (1..=31).contains(&day);
            elements(group, 10, [0x80, 0, month, day], DATE, allowed);
        }
    }
    for day in 0..=255 {
        for year in [0, 0xFF] {
            let allowed = (1..=31).contains(&day);
            elements(group, 10, [year, year, 12, day], DATE, allowed);
        }
    }
}

pub fn times(group: &mut Group) {
    let limits = [23, 59, 59, 99];
    for part in 0..4 {
        for value in 0..=255 {
            for others in [[0; 4], limits] {
                let mut time = others;
                time[part] = value;
                elements(group, 11, time, TIME, value <= limits[part]);
            }
        }
    }
    for choice in 0..16 {
        let mut time = limits;
        for (part, value) in time.iter_mut().enumerate() {
            *value += choice >> part & 1;
        }
        elements(group, 11, time, TIME, choice == 0);
    }
}

fn text(group: &mut Group, code: i16, data: Vec<u8>, allowed: bool) {
    let content = Content::listed(code, data);
    let refusal = if allowed { 0 } else { 11 };
    let before = Content::listed(1, vec![1; 5]);
    let list = List::numbered(vec![before, content]);
    expect(group, &list, ROOM, refusal);
}

/// Every first byte at small sizes, and bytes that agree in 8 bits only at large ones.
pub fn pascal_texts(group: &mut Group) {
    for size in 0..=10_usize {
        for first in 0..=255 {
            let mut data = vec![b'a'; size];
            data.iter_mut().take(1).for_each(|slot| *slot = first);
            text(group, 18, data, usize::from(first) + 1 == size);
        }
    }
    for size in (200..=300).chain([511, 512, 513, 768, 1000]) {
        let right = (size - 1) as u8;
        for first in [right, right.wrapping_add(1), right.wrapping_sub(1), 0, 255] {
            let mut data = vec![0; size];
            data[0] = first;
            text(group, 18, data, usize::from(first) + 1 == size);
        }
    }
}

/// Every choice of zeros at small sizes, and one zero at every place of longer texts.
pub fn closed_texts(group: &mut Group) {
    for size in 0..=9 {
        for zeros in 0..1_u32 << size {
            let letter = |place: u32| if zeros >> place & 1 == 1 { 0 } else { 0xFF };
            let data: Vec<u8> = (0..size).map(letter).collect();
            text(group, 19, data, size > 0 && zeros == 1 << (size - 1));
        }
    }
    for size in [15, 16, 17, 31, 33, 64, 255, 256, 257] {
        for place in 0..size {
            let mut data = vec![b'a'; size];
            data[place] = 0;
            text(group, 19, data.clone(), place == size - 1);
            data[size - 1] = 0;
            text(group, 19, data, place == size - 1);
        }
    }
}
