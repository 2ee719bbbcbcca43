//! The answers of the ABIF functions, field by field, and the same answers made from the reader's.

use super::reader::{Directory, Entry, Item, Tag, Value};
use crate::answers::{Found, Untouched};
use crate::refusal::Refusal;
use std::ops::Range;

#[repr(C)]
#[derive(Clone, Copy, Debug, Default, PartialEq, Eq)]
pub struct Opened {
    pub refusal: u64,
    pub place: u64,
    pub count: u64,
}

#[repr(C)]
#[derive(Clone, Copy, Debug, Default)]
pub struct Element {
    pub refusal: u64,
    pub kind: u64,
    pub whole: i64,
    pub single: f32,
    pub single_bits: u32,
    pub real: f64,
    pub real_bits: u64,
    pub a: i32,
    pub b: i32,
    pub c: i32,
    pub d: i32,
}

#[repr(C)]
#[derive(Clone, Copy, Debug, Default, PartialEq, Eq)]
pub struct Part {
    pub refusal: u64,
    pub start: u64,
    pub length: u64,
}

// Floats are equal by their bits, but any NaN stands for any other in `single` and `real`.
impl PartialEq for Element {
    fn eq(&self, other: &Element) -> bool {
        let single = self.single.to_bits() == other.single.to_bits()
            || (self.single.is_nan() && other.single.is_nan());
        let real = self.real.to_bits() == other.real.to_bits()
            || (self.real.is_nan() && other.real.is_nan());
        let parts = [self.a, self.b, self.c, self.d] == [other.a, other.b, other.c, other.d];
        single
            && real
            && parts
            && self.refusal == other.refusal
            && self.kind == other.kind
            && self.whole == other.whole
            && self.single_bits == other.single_bits
            && self.real_bits == other.real_bits
    }
}

impl From<Result<Directory, Refusal>> for Opened {
    fn from(answer: Result<Directory, Refusal>) -> Opened {
        match answer {
            Ok(directory) => Opened {
                refusal: 0,
                place: directory.place as u64,
                count: directory.count as u64,
            },
            Err(refusal) => Opened {
                refusal: refusal as u64,
                ..Opened::default()
            },
        }
    }
}

impl From<Result<Item, Refusal>> for Found {
    fn from(answer: Result<Item, Refusal>) -> Found {
        match answer {
            Ok(item) => Found {
                refusal: 0,
                type_code: item.type_code as u64,
                count: item.count,
                start: item.start as u64,
                length: item.length as u64,
            },
            Err(refusal) => Found::refused(refusal as u64),
        }
    }
}

impl From<Result<Value, Refusal>> for Element {
    fn from(answer: Result<Value, Refusal>) -> Element {
        match answer {
            Ok(value) => Element::from(value),
            Err(refusal) => Element {
                refusal: refusal as u64,
                ..Element::default()
            },
        }
    }
}

impl From<Value> for Element {
    fn from(value: Value) -> Element {
        match value {
            Value::Whole(whole) => Element::whole(1, whole),
            Value::Single(bits) => Element {
                kind: 2,
                single: f32::from_bits(bits),
                single_bits: bits,
                ..Element::default()
            },
            Value::Real(bits) => Element {
                kind: 3,
                real: f64::from_bits(bits),
                real_bits: bits,
                ..Element::default()
            },
            Value::Date(year, month, day) => {
                Element::parts(4, [year.into(), month.into(), day.into(), 0])
            }
            Value::Time(parts) => Element::parts(5, parts.map(i32::from)),
            Value::Bool(truth) => Element::whole(6, truth.into()),
            Value::Thumb(a, b, c, d) => Element::parts(7, [a, b, c.into(), d.into()]),
        }
    }
}

impl Element {
    pub fn whole(kind: u64, whole: i64) -> Element {
        Element {
            kind,
            whole,
            ..Element::default()
        }
    }

    fn parts(kind: u64, [a, b, c, d]: [i32; 4]) -> Element {
        Element {
            kind,
            a,
            b,
            c,
            d,
            ..Element::default()
        }
    }
}

// Every field has a value of its own, and another one in every record.
impl Untouched for Entry {
    fn untouched(place: usize) -> Entry {
        let number = u32::untouched(place);
        let turned = |bits| number.rotate_left(bits) as i32;
        Entry {
            tag: Tag {
                name: number,
                number: turned(4),
            },
            type_code: number as i16,
            element_size: !number as i16,
            count: turned(8),
            data_size: turned(12),
            data_offset: turned(16),
            data_handle: turned(20),
        }
    }
}

impl From<Result<Range<usize>, Refusal>> for Part {
    fn from(answer: Result<Range<usize>, Refusal>) -> Part {
        match answer {
            Ok(range) => Part {
                refusal: 0,
                start: range.start as u64,
                length: range.len() as u64,
            },
            Err(refusal) => Part {
                refusal: refusal as u64,
                ..Part::default()
            },
        }
    }
}
