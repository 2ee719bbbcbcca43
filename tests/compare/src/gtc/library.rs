//! The library's GTC functions behind safe calls.

use super::answers::{Point, Snp, TransformationAnswer};
use super::reader::Transformation;
use crate::answers::{Found, Listed, Verdict};

extern "C" {
    fn jt_gtc_judge(bytes: *const u8, len: usize) -> Verdict;
    fn jt_gtc_lookup(bytes: *const u8, len: usize, id: u16) -> Found;
    fn jt_gtc_snp(bytes: *const u8, len: usize, index: u64) -> Snp;
    fn jt_gtc_snps(bytes: *const u8, len: usize, first: u64, out: *mut u64, room: usize) -> Listed;
    fn jt_gtc_transformation(bytes: *const u8, len: usize, k: u64) -> TransformationAnswer;
    fn jt_gtc_normalise(t: Transformation, x: u16, y: u16, cos_theta: f32, sin_theta: f32)
        -> Point;
}

pub fn judge(bytes: &[u8]) -> Verdict {
    // SAFETY: the pointer and the length are those of one slice.
    unsafe { jt_gtc_judge(bytes.as_ptr(), bytes.len()) }
}

pub fn lookup(bytes: &[u8], id: u16) -> Found {
    // SAFETY: the pointer and the length are those of one slice.
    unsafe { jt_gtc_lookup(bytes.as_ptr(), bytes.len(), id) }
}

pub fn snp(bytes: &[u8], number: u64) -> Snp {
    // SAFETY: the pointer and the length are those of one slice.
    unsafe { jt_gtc_snp(bytes.as_ptr(), bytes.len(), number) }
}

pub fn snps(bytes: &[u8], first: u64, out: &mut [u64]) -> Listed {
    // SAFETY: each pointer and the length behind it are those of one slice.
    unsafe {
        jt_gtc_snps(
            bytes.as_ptr(),
            bytes.len(),
            first,
            out.as_mut_ptr(),
            out.len(),
        )
    }
}

pub fn transformation(bytes: &[u8], number: u64) -> TransformationAnswer {
    // SAFETY: the pointer and the length are those of one slice.
    unsafe { jt_gtc_transformation(bytes.as_ptr(), bytes.len(), number) }
}

pub fn normalise(by: &Transformation, x: u16, y: u16, cosine: f32, sine: f32) -> Point {
    // SAFETY: the function is given numbers alone.
    unsafe { jt_gtc_normalise(*by, x, y, cosine, sine) }
}
