//! GTC: judging, SNPs' records one by one and at once, and normalising.

use crate::timing::compare_times;
use compare::answers::{Listed, Verdict};
use compare::gtc::answers::{Point, Snp, SNP_NUMBERS};
use compare::gtc::generate;
use compare::gtc::library;
use compare::gtc::reader::{self, SnpArrays, Transformation};
use compare::random::Random;
use std::hint::black_box;

const ROUNDS: usize = 101;
const SNPS: usize = 1_000_000;
/// Of this many SNPs one is read where they are read one by one.
const STRIDE: usize = 50;

/// A file with all listed items, those for each SNP of a million.
pub fn array_file() -> Vec<u8> {
    generate::array_file(&mut Random::new(1), SNPS).bytes()
}

pub fn judging(file: &[u8]) {
    let expected = Verdict::whole(file.len(), 0);
    assert_eq!(Verdict::from(reader::judge(file)), expected);
    assert_eq!(library::judge(file), expected);
    compare_times(
        &format!("judging a GTC file of {} bytes", file.len()),
        ROUNDS,
        || {
            black_box(library::judge(black_box(file)));
        },
        || {
            let _ = black_box(reader::judge(black_box(file)));
        },
    );
}

/// Records one by one: the library looks the arrays up for each, plain Rust once for all.
pub fn single_snps(file: &[u8]) {
    let numbers: Vec<u64> = (1..=SNPS as u64).step_by(STRIDE).collect();
    let arrays = SnpArrays::of(file).expect("the file has all arrays");
    for &number in &numbers {
        let expected = Snp::from(arrays.snp(number));
        assert_eq!(expected.refusal, 0);
        assert_eq!(library::snp(file, number), expected);
    }
    compare_times(
        &format!("reading {} SNPs one by one", numbers.len()),
        ROUNDS,
        || {
            for &number in black_box(&numbers) {
                black_box(library::snp(black_box(file), number));
            }
        },
        || {
            let arrays = SnpArrays::of(black_box(file)).expect("the file has all arrays");
            for &number in black_box(&numbers) {
                let _ = black_box(arrays.snp(number));
            }
        },
    );
}

// Each side writes into a buffer of its own, which is not cleared between the calls.
pub fn all_snps(file: &[u8]) {
    let mut ours = vec![0; SNP_NUMBERS * SNPS];
    let mut plain = vec![0; SNP_NUMBERS * SNPS];
    let answer = reader::snps(file, 1, &mut plain);
    assert_eq!(answer, Ok(SNPS));
    assert_eq!(library::snps(file, 1, &mut ours), Listed::from(answer));
    assert!(ours == plain);
    compare_times(
        &format!("reading {SNPS} SNPs at once"),
        ROUNDS,
        || {
            let out = black_box(&mut ours[..]);
            black_box(library::snps(black_box(file), 1, out));
        },
        || {
            let out = black_box(&mut plain[..]);
            let _ = black_box(reader::snps(black_box(file), 1, out));
        },
    );
}

/// Raw intensities of every SNP to points, against one loop that plain Rust may take several at a
/// time in, and against a call for each, with the transformation by value.
pub fn normalising(file: &[u8]) {
    let by = reader::transformation(file, 1)
        .expect("the file has a transformation")
        .value;
    let (cosine, sine) = (by.theta.cos(), by.theta.sin());
    let mut random = Random::new(2);
    let raw: Vec<[u16; 2]> = (0..SNPS)
        .map(|_| [(); 2].map(|()| random.next_u64() as u16))
        .collect();
    let mut ours = vec![Point::default(); SNPS];
    let mut plain = vec![Point::default(); SNPS];
    let mut library = || {
        let by = black_box(&by);
        for (point, [x, y]) in ours.iter_mut().zip(black_box(&raw)) {
            *point = library::normalise(by, *x, *y, cosine, sine);
        }
    };
    compare_times(
        &format!("normalising {SNPS} points"),
        ROUNDS,
        &mut library,
        || {
            let by = black_box(&by);
            for (point, [x, y]) in plain.iter_mut().zip(black_box(&raw)) {
                *point = reader::normalise(by, *x, *y, cosine, sine).into();
            }
        },
    );
    compare_times(
        "normalising, against a C call for each point",
        ROUNDS,
        &mut library,
        || {
            let by = black_box(&by);
            for (point, [x, y]) in plain.iter_mut().zip(black_box(&raw)) {
                *point = normalise_by_value(*by, *x, *y, cosine, sine);
            }
        },
    );
    assert!(ours == plain);
}

// A call with the C function's arguments, which the compiler does not take into the loop either.
#[inline(never)]
extern "C" fn normalise_by_value(
    by: Transformation,
    x: u16,
    y: u16,
    cosine: f32,
    sine: f32,
) -> Point {
    reader::normalise(&by, x, y, cosine, sine).into()
}
