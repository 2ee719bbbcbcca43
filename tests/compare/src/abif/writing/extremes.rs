//! Lists of different lengths, and numbers at the bounds of their fields.

use super::faults::{Fault, FIELDS, WIDE};
use super::list::List;
use super::{compare, compare_calls, expect};
use crate::abif::generate::Content;
use crate::abif::library;
use crate::abif::reader::Tag;
use crate::abif::writer::{self, element_size, Lent};
use crate::answers::Finished;
use crate::report::Group;

const LARGEST: u64 = i32::MAX as u64;
/// More zeros than an item may have; no call has a reason to touch them.
const ZEROS: usize = (1 << 31) + 64;
const PAST_32_BITS: usize = 1 << 32;

/// Every choice of lists that are shorter or longer by one, also where the items are not sound.
pub fn list_lengths(group: &mut Group) {
    for count in 0..=3 {
        let shorts = Content::listed(4, vec![1, 2, 3, 4, 5, 6]);
        let base = List::numbered(vec![shorts; count]);
        for choice in 0..3_usize.pow(6) {
            let steps: Vec<usize> = (0..6)
                .map(|place| choice / 3_usize.pow(place) % 3)
                .collect();
            let mut list = base.clone();
            for (field, step) in FIELDS.into_iter().zip(&steps) {
                Fault::Resize(field, (count + step).saturating_sub(1)).apply(&mut list);
            }
            let lengths: Vec<usize> = steps.iter().map(|step| (count + step).max(1)).collect();
            if lengths.iter().any(|length| *length != lengths[0]) {
                expect(group, &list, 1000, 9);
                list.types.iter_mut().for_each(|code| *code = 1023);
                expect(group, &list, 1000, 9);
                expect(group, &list, 0, 9);
            } else {
                compare(group, &list, 1000);
            }
        }
    }
}

/// Starts and lengths at the bounds of the buffer and of numbers; sums that wrap lie outside.
pub fn parts(group: &mut Group) {
    for end in [0, 1, 5, 8, 100_u64] {
        let mut starts: Vec<u64> = (0..=end.min(6)).collect();
        starts.extend([end.saturating_sub(1), end, end + 1, end + 2]);
        starts.extend(WIDE);
        let mut lengths = starts.clone();
        lengths.extend(starts.iter().map(|start| end.wrapping_sub(*start)));
        lengths.extend(starts.iter().map(|start| 1_u64.wrapping_sub(*start)));
        for &start in &starts {
            for &length in &lengths {
                part(group, end, start, length);
            }
        }
    }
}

fn part(group: &mut Group, end: u64, start: u64, length: u64) {
    let inside = u128::from(start) + u128::from(length) <= u128::from(end);
    for code in [1, 1024] {
        let mut list = List::numbered(vec![Content::listed(code, Vec::new())]);
        list.data = (1..=end as u8).collect();
        list.starts[0] = start;
        list.lengths[0] = length;
        list.counts[0] = length as u32;
        expect(group, &list, 300, if inside { 0 } else { 9 });
        list.types[0] = 0;
        expect(group, &list, 300, if inside { 10 } else { 9 });
    }
}

// One item of this many zeros, and an item behind it that is refused with 10.
fn zeros_then_refused(group: &mut Group, zeros: &[u8], code: i16, count: u32, length: u64) {
    let lent = Lent {
        names: &[1, 2],
        numbers: &[1, 1],
        types: &[code, 0],
        counts: &[count, 0],
        starts: &[1, 0],
        lengths: &[length, 0],
        data: zeros,
    };
    let size = element_size(code).unwrap_or(1) as u64;
    let right = u64::from(count) * size;
    let agree = length == right && right <= LARGEST && u64::from(count) <= LARGEST;
    let expected = if agree { 10 } else { 9 };
    let (answer, _) = compare_calls(group, &lent, 400);
    group.check(answer.refusal == expected, &[], || {
        format!("type {code}, count {count}, length {length}: {answer:?}, expected {expected}")
    });
}

/// Counts and lengths around the largest of 31 bits, and products that wrap at 32 bits.
pub fn sizes(group: &mut Group) {
    let zeros = vec![0; ZEROS];
    for code in [1, 2, 3, 4, 5, 7, 8, 12, 13, 1024, i16::MAX] {
        let size = element_size(code).unwrap_or(1) as u64;
        let mut counts = vec![0, 1, LARGEST - 1, LARGEST, LARGEST + 1, LARGEST + 2];
        counts.extend([u64::from(u32::MAX) - 1, u64::from(u32::MAX)]);
        for bound in [1_u64 << 31, 1 << 32, 1 << 33] {
            let around = bound / size;
            counts.extend([around - 1, around, around + 1]);
        }
        counts.retain(|count| u32::try_from(*count).is_ok());
        for count in counts {
            let right = count * size;
            let mut lengths = vec![right, right as u32 as u64, (right as i32 as u64) & LARGEST];
            lengths.extend([right + 1, right.saturating_sub(1), count, 0]);
            lengths.extend([LARGEST - 1, LARGEST, LARGEST + 1]);
            for length in lengths {
                zeros_then_refused(group, &zeros, code, count as u32, length);
            }
        }
    }
}

/// Files of just the most bytes, which lack only room, and longer ones, past 32 bits too.
pub fn totals(group: &mut Group) {
    let zeros = vec![0; ZEROS];
    for items in [1, 2, 3, 999_u64] {
        let most = LARGEST - 128 - 28 * items;
        for whole in [most - 1, most, most + 1, most + 128, most + 28 * items] {
            split(group, &zeros, items, whole);
        }
        let wrapped = (1_u64 << 32) - 128 - 28 * items;
        for whole in [
            wrapped - 1,
            wrapped,
            wrapped + 5,
            wrapped + (1 << 31),
            wrapped + (1 << 32),
        ] {
            split(group, &zeros, items, whole);
        }
    }
    let longest = vec![LARGEST; 999];
    total(group, &zeros, &longest, 9);
    total(group, &zeros, &vec![LARGEST; 1000], 5);
}

// So many items that share the buffer and have this many bytes together, if none is too long.
fn split(group: &mut Group, zeros: &[u8], items: u64, whole: u64) {
    let mut lengths = vec![whole / items; items as usize];
    lengths[0] += whole % items;
    if lengths[0] <= LARGEST {
        let fits = whole + 128 + 28 * items <= LARGEST;
        total(group, zeros, &lengths, if fits { 13 } else { 9 });
    }
}

fn total(group: &mut Group, zeros: &[u8], lengths: &[u64], expected: u64) {
    let numbers: Vec<i32> = (1..).take(lengths.len()).collect();
    let counts: Vec<u32> = lengths.iter().map(|&length| length as u32).collect();
    let lent = Lent {
        names: &vec![Tag::new(b"LONG", 1).name; lengths.len()],
        numbers: &numbers,
        types: &vec![1; lengths.len()],
        counts: &counts,
        starts: &vec![0; lengths.len()],
        lengths,
        data: zeros,
    };
    for room in [0, 400, 30_000] {
        let (answer, _) = compare_calls(group, &lent, room);
        group.check(answer.refusal == expected, &[], || {
            let items = lengths.len();
            format!("{items} items, room {room}: {answer:?}, expected {expected}")
        });
    }
}

/// An item whose data start past 32 bits, and an output whose room 32 bits do not count.
pub fn past_32_bits(group: &mut Group) {
    group.input();
    let content = Content::listed(1, vec![1, 2, 3, 4, 5, 6]);
    let near = List::numbered(vec![content]);
    let mut expected = vec![0; near.file_length() + 8];
    let answer = Finished::from(writer::write(&near.lent(), &mut expected));
    let mut data = vec![0; PAST_32_BITS + 56];
    data[PAST_32_BITS + 50..].copy_from_slice(&near.data);
    let far = Lent {
        starts: &[PAST_32_BITS as u64 + 50],
        data: &data,
        ..near.lent()
    };
    for room in [near.file_length(), PAST_32_BITS + 10] {
        let mut out = vec![0; room + 8];
        let given = library::write(&far, &mut out[..room]);
        let same = given == answer && out.starts_with(&expected);
        group.check(same, &out[..expected.len()], || {
            format!("room {room}: library {given:?}, expected {answer:?}")
        });
    }
}
