//! Arguments for calls, at and past their bounds.

pub const PAST_16_BITS: u64 = 1 << 16;
pub const PAST_32_BITS: u64 = 1 << 32;
const MOST_TAKEN_WHOLE: usize = 10;

/// Of a long list a few at its front, in its middle and at its end.
pub fn sample<T: Copy>(list: &[T]) -> Vec<T> {
    let count = list.len();
    if count <= MOST_TAKEN_WHOLE {
        return list.to_vec();
    }
    let places = [0, 1, count / 3, count / 2, count - 2, count - 1];
    places.iter().map(|&place| list[place]).collect()
}

/// Each number once.
pub fn distinct<T: Ord>(mut numbers: Vec<T>) -> Vec<T> {
    numbers.sort_unstable();
    numbers.dedup();
    numbers
}

/// Numbers from one around a count, in its middle, and far past it.
pub fn numbers_around(count: u64) -> Vec<u64> {
    let mut numbers = vec![0, 1, 2, count.div_ceil(2), count, count + 1];
    numbers.extend([PAST_16_BITS + 1, PAST_32_BITS, PAST_32_BITS + 1, u64::MAX]);
    distinct(numbers)
}

/// Rooms for a bulk call that has so many items left, of this width: none, a number too few for one
/// item, just one, some, a number too few for all, all, and more.
pub fn bulk_rooms(left: usize, width: usize) -> Vec<usize> {
    let all = left * width;
    let mut rooms = vec![0, width - 1, width, width + 1];
    rooms.extend([left / 2 * width, left / 2 * width + width / 2]);
    rooms.extend([all.saturating_sub(1), all, all + 3, all + width]);
    distinct(rooms)
}

/// Rooms for a bulk call from this number on in a file that states so many items, of which it holds
/// no more than `most`.
pub fn bulk_rooms_from(first: u64, stated: u64, most: usize, width: usize) -> Vec<usize> {
    let left = (stated + 1).saturating_sub(first.max(1));
    bulk_rooms(left.min(most as u64) as usize, width)
}

/// Rooms for an output of so many elements.
pub fn rooms(exact: usize) -> Vec<usize> {
    let mut rooms = vec![0, exact.saturating_sub(1), exact, exact + 3];
    rooms.dedup();
    rooms
}
