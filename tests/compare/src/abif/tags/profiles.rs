//! The profiles, which are the printed tables counted from one in their order.

use super::row::Row;
use super::tables::TABLES;

pub const COUNT: u64 = TABLES.len() as u64;

/// Numbers of no profile, those among them that have a profile's number in their low bits.
pub const UNKNOWN: [u64; 11] = [
    0,
    COUNT + 1,
    COUNT + 2,
    255,
    256 + 1,
    (1 << 16) + 2,
    1 << 32,
    (1 << 32) + 3,
    1 << 63,
    (1 << 63) + COUNT,
    u64::MAX,
];

/// The rows of a profile, where there is such a profile.
pub fn rows_of(profile: u64) -> Option<&'static [Row]> {
    all().find_map(|(number, rows)| (number == profile).then_some(rows))
}

/// Every profile's number with its rows.
pub fn all() -> impl Iterator<Item = (u64, &'static [Row])> + Clone {
    (1..).zip(TABLES)
}
