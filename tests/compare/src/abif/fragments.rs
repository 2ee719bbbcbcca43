//! A small run of fragments as an instrument stores it: five dyes, no base order and no called bases.

use super::draft::Draft;
use super::reader::Tag;
use super::run::{file_of, shorts, text};
use crate::random::Random;

const POINTS: usize = 4000;
/// Before this point no fragment has reached the detector.
const FIRST_FRAGMENT: usize = 1600;
const FRAGMENTS: usize = 6;
const LAST_DYE: usize = 5;
/// A peak's height at each distance from its place, in hundredths.
const PEAK: [usize; 12] = [100, 97, 88, 75, 60, 45, 32, 21, 13, 8, 4, 1];
/// Heights of peaks, of which the lowest are a hundredth of the highest.
const HEIGHTS: [usize; 5] = [85, 240, 900, 2600, 8516];
const DYES: [(&[u8], usize); LAST_DYE] = [
    (b"6-FAM", 522),
    (b"VIC", 554),
    (b"NED", 575),
    (b"PET", 595),
    (b"LIZ", 655),
];

/// The run, with the directory at 128 and the data of DATA 105, the fifth dye's, at the end.
pub fn fragments() -> Draft {
    let mut random = Random::new(62);
    let mut items = vec![
        (Tag::new(b"Dye#", 1), shorts([LAST_DYE])),
        (Tag::new(b"SpNm", 1), text("lección 5, tubo 2".as_bytes())),
    ];
    for (number, (name, wavelength)) in (1..).zip(DYES) {
        items.push((Tag::new(b"DyeN", number), text(name)));
        items.push((Tag::new(b"DyeW", number), shorts([wavelength])));
    }
    for number in [1, 2, 3, 4, 105] {
        items.push((Tag::new(b"DATA", number), shorts(points(&mut random))));
    }
    file_of(&items)
}

/// How many bytes the data of a channel take.
pub const fn channel_length() -> usize {
    2 * POINTS
}

// One dye's trace: noise, and a peak for each of its fragments.
fn points(random: &mut Random) -> Vec<usize> {
    let mut points: Vec<usize> = (0..POINTS).map(|_| random.below(9)).collect();
    for _ in 0..FRAGMENTS {
        let place = random.between(FIRST_FRAGMENT, POINTS - PEAK.len() - 1);
        let height = random.pick(&HEIGHTS);
        for (at, point) in points.iter_mut().enumerate() {
            let share = PEAK.get(at.abs_diff(place)).unwrap_or(&0);
            *point += height * share / 100;
        }
    }
    points
}
