//! The answers of the GTC functions, field by field, and the same answers made from the reader's.

use super::reader::{self, Item, PlacedTransformation, Transformation};
use crate::answers::Found;
use crate::refusal::Refusal;

/// How many numbers the bulk call writes for a SNP.
pub const SNP_NUMBERS: usize = 9;

#[repr(C)]
#[derive(Clone, Copy, Debug, Default, PartialEq, Eq)]
pub struct Snp {
    pub refusal: u64,
    pub code: u64,
    pub ploidy: u64,
    pub b_alleles: u64,
    pub call_1: u64,
    pub call_2: u64,
    pub score_bits: u64,
    pub x: u64,
    pub y: u64,
}

#[repr(C)]
#[derive(Clone, Copy, Debug, Default, PartialEq)]
pub struct TransformationAnswer {
    pub refusal: u64,
    pub start: u64,
    pub value: Transformation,
}

#[repr(C)]
#[derive(Clone, Copy, Debug, Default)]
pub struct Point {
    pub x: f32,
    pub y: f32,
}

// Floats are equal by their bits, but any NaN stands for any other.
fn same(one: f32, other: f32) -> bool {
    one.to_bits() == other.to_bits() || (one.is_nan() && other.is_nan())
}

impl Transformation {
    /// The twelve floats in the file's order.
    pub fn floats(&self) -> [f32; 12] {
        let [a, b, c, d, e, f] = self.reserved;
        [
            self.offset_x,
            self.offset_y,
            self.scale_x,
            self.scale_y,
            self.shear,
            self.theta,
            a,
            b,
            c,
            d,
            e,
            f,
        ]
    }
}

impl PartialEq for Transformation {
    fn eq(&self, other: &Transformation) -> bool {
        let floats = self.floats().into_iter().zip(other.floats());
        self.version == other.version && floats.into_iter().all(|(one, other)| same(one, other))
    }
}

impl PartialEq for Point {
    fn eq(&self, other: &Point) -> bool {
        same(self.x, other.x) && same(self.y, other.y)
    }
}

impl From<[f32; 2]> for Point {
    fn from([x, y]: [f32; 2]) -> Point {
        Point { x, y }
    }
}

impl From<Result<Item, Refusal>> for Found {
    fn from(answer: Result<Item, Refusal>) -> Found {
        match answer {
            Ok(item) => Found {
                refusal: 0,
                type_code: item.id.into(),
                count: item.count,
                start: item.part.start as u64,
                length: item.part.len() as u64,
            },
            Err(refusal) => Found::refused(refusal as u64),
        }
    }
}

impl From<Result<reader::Snp, Refusal>> for Snp {
    fn from(answer: Result<reader::Snp, Refusal>) -> Snp {
        match answer {
            Ok(snp) => {
                let [call_1, call_2] = snp.calls.map(u64::from);
                Snp {
                    refusal: 0,
                    code: snp.code.into(),
                    ploidy: snp.ploidy.into(),
                    b_alleles: snp.b_alleles.into(),
                    call_1,
                    call_2,
                    score_bits: snp.score_bits.into(),
                    x: snp.x.into(),
                    y: snp.y.into(),
                }
            }
            Err(refusal) => Snp::refused(refusal as u64),
        }
    }
}

impl Snp {
    pub fn refused(refusal: u64) -> Snp {
        Snp {
            refusal,
            ..Snp::default()
        }
    }

    /// The fields in their order, as the bulk call writes them.
    pub fn numbers(&self) -> [u64; SNP_NUMBERS] {
        [
            self.refusal,
            self.code,
            self.ploidy,
            self.b_alleles,
            self.call_1,
            self.call_2,
            self.score_bits,
            self.x,
            self.y,
        ]
    }
}

impl From<Result<PlacedTransformation, Refusal>> for TransformationAnswer {
    fn from(answer: Result<PlacedTransformation, Refusal>) -> TransformationAnswer {
        match answer {
            Ok(placed) => TransformationAnswer {
                refusal: 0,
                start: placed.start as u64,
                value: placed.value,
            },
            Err(refusal) => TransformationAnswer::refused(refusal as u64),
        }
    }
}

impl TransformationAnswer {
    pub fn refused(refusal: u64) -> TransformationAnswer {
        TransformationAnswer {
            refusal,
            ..TransformationAnswer::default()
        }
    }
}
