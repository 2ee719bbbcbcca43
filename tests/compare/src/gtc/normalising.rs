//! Normalised intensities, bit for bit; any NaN stands for any other.

use super::answers::Point;
use super::library;
use super::reader::{self, Transformation};
use crate::random::Random;
use crate::report::Group;
use std::num::FpCategory;

const RANDOM_INPUTS: usize = 2_000_000;

/// Bits of zeros, ones, subnormals, bounds, infinities and NaNs.
const SPECIAL: [u32; 13] = [
    0x0000_0000,
    0x8000_0000,
    0x3F80_0000,
    0xBF80_0000,
    0x0000_0001,
    0x807F_FFFF,
    0x0080_0000,
    0x7F7F_FFFF,
    0xFF7F_FFFF,
    0x7F80_0000,
    0xFF80_0000,
    0x7FC0_0000,
    0xFF80_0123,
];

const INTENSITIES: [(u16, u16); 4] = [(0, 0), (0, u16::MAX), (u16::MAX, 1), (40_000, 25_000)];

#[derive(Clone, Copy, Debug)]
struct Input {
    by: Transformation,
    x: u16,
    y: u16,
    cosine: f32,
    sine: f32,
}

/// How many results there were of each kind.
#[derive(Default)]
struct Kinds {
    normal: u64,
    subnormal: u64,
    zero: u64,
    infinite: u64,
    nan: u64,
}

impl Kinds {
    fn add(&mut self, result: f32) {
        let kind = match result.classify() {
            FpCategory::Normal => &mut self.normal,
            FpCategory::Subnormal => &mut self.subnormal,
            FpCategory::Zero => &mut self.zero,
            FpCategory::Infinite => &mut self.infinite,
            FpCategory::Nan => &mut self.nan,
        };
        *kind += 1;
    }

    fn report(self, group: &mut Group) {
        let counts = [
            self.normal,
            self.subnormal,
            self.zero,
            self.infinite,
            self.nan,
        ];
        group.check(!counts.contains(&0), &[], || {
            "a kind of result is missing".to_string()
        });
        let [normal, subnormal, zero, infinite, nan] = counts;
        group.remark(format!(
            "results: {normal} normal, {subnormal} subnormal, {zero} zero, {infinite} infinite, {nan} NaN"
        ));
    }
}

fn compare(group: &mut Group, kinds: &mut Kinds, input: &Input) {
    group.input();
    let Input {
        by,
        x,
        y,
        cosine,
        sine,
    } = *input;
    let expected = Point::from(reader::normalise(&by, x, y, cosine, sine));
    let answer = library::normalise(&by, x, y, cosine, sine);
    kinds.add(expected.x);
    kinds.add(expected.y);
    group.check(answer == expected, &[], || {
        format!("{input:?}: library {answer:?}, reader {expected:?}")
    });
}

/// Every combination of special values; the two scales, which do not meet, change together.
pub fn special_values(group: &mut Group) {
    let mut kinds = Kinds::default();
    for choice in 0..SPECIAL.len().pow(6) {
        let index = |place| choice / SPECIAL.len().pow(place) % SPECIAL.len();
        let value = |place| f32::from_bits(SPECIAL[index(place)]);
        let scale_y = f32::from_bits(SPECIAL[SPECIAL.len() - 1 - index(2)]);
        let by = Transformation {
            offset_x: value(0),
            offset_y: value(1),
            scale_x: value(2),
            scale_y,
            shear: value(3),
            ..Transformation::default()
        };
        for (x, y) in INTENSITIES {
            let input = Input {
                by,
                x,
                y,
                cosine: value(4),
                sine: value(5),
            };
            compare(group, &mut kinds, &input);
        }
    }
    kinds.report(group);
}

/// Values as in the instrument's files, any bits, and both together with special values.
pub fn random_values(group: &mut Group) {
    let mut random = Random::new(26);
    let mut kinds = Kinds::default();
    for index in 0..RANDOM_INPUTS {
        let ordinary = ordinary_input(&mut random);
        let input = match index % 4 {
            0 | 1 => ordinary,
            2 => mixed_input(&mut random, ordinary, 1),
            _ => mixed_input(&mut random, ordinary, 3),
        };
        compare(group, &mut kinds, &input);
    }
    kinds.report(group);
}

fn ordinary_input(random: &mut Random) -> Input {
    let mut fraction = || random.below(1 << 24) as f32 / (1 << 24) as f32;
    let theta = fraction() * 8.0 - 4.0;
    let by = Transformation {
        version: 1,
        offset_x: fraction() * 2000.0 - 500.0,
        offset_y: fraction() * 2000.0 - 500.0,
        scale_x: fraction() * 20_000.0 + 1.0,
        scale_y: fraction() * 20_000.0 + 1.0,
        shear: fraction() - 0.5,
        theta,
        reserved: [0.0; 6],
    };
    let intensity = |random: &mut Random| match random.below(8) {
        0 => 0,
        1 => u16::MAX,
        _ => random.next_u64() as u16,
    };
    Input {
        by,
        x: intensity(random),
        y: intensity(random),
        cosine: theta.cos(),
        sine: theta.sin(),
    }
}

// Each float is kept with a chance of `kinds` - 1 in `kinds`, else it is special or has any bits.
fn mixed_input(random: &mut Random, mut input: Input, kinds: usize) -> Input {
    let mut change = |value: &mut f32| {
        if random.one_in(kinds) {
            let any = random.next_u64() as u32;
            let special = random.pick(&SPECIAL);
            *value = f32::from_bits(random.pick(&[special, any, any]));
        }
    };
    let by = &mut input.by;
    for value in [
        &mut by.offset_x,
        &mut by.offset_y,
        &mut by.scale_x,
        &mut by.scale_y,
        &mut by.shear,
        &mut by.theta,
        &mut input.cosine,
        &mut input.sine,
    ] {
        change(value);
    }
    by.reserved.iter_mut().for_each(change);
    by.version = by.theta.to_bits() as i32;
    input
}
