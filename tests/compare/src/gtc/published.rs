//! The published samples with their published answers, asked of library and reader.

use super::answers::{Snp, TransformationAnswer, SNP_NUMBERS};
use super::draft::{listed_ids, GENOTYPES};
use super::generate::{plain_file, snp_items, snp_of_code};
use super::questions::{Answer, Question};
use super::{samples, Gtc};
use crate::answers::{Found, Verdict, Written};
use crate::groups::published::{expect, expect_lines, expect_verdict};
use crate::report::Group;

/// The rows of the published table of genotypes.
const GENOTYPE_ROWS: [(&str, u8); 17] = [
    ("NC", 0),
    ("AA", 1),
    ("AB", 2),
    ("BB", 3),
    ("NULL", 4),
    ("A", 5),
    ("B", 6),
    ("AAA", 7),
    ("AAB", 8),
    ("ABB", 9),
    ("BBB", 10),
    ("AAAA", 11),
    ("AAAB", 12),
    ("AABB", 13),
    ("ABBB", 14),
    ("BBBB", 15),
    ("BBBBBBBB", 45),
];

/// The ids of the published table, those without a gap between them as a range.
const ID_RANGES: [(u16, u16); 8] = [
    (1, 3),
    (10, 12),
    (100, 101),
    (200, 201),
    (300, 300),
    (400, 400),
    (500, 501),
    (1000, 1016),
];

pub fn samples(group: &mut Group) {
    no_bytes(group);
    no_entries(group);
    one_value(group);
    genotypes(group);
    forbidden_code(group);
    ids(group);
    program_lines(group);
}

fn not_found(refusal: u64) -> Answer {
    Answer::Found(Found::refused(refusal))
}

fn no_snp(refusal: u64) -> Answer {
    Answer::Snp(Snp::refused(refusal))
}

fn no_transformation(refusal: u64) -> Answer {
    Answer::Transformation(TransformationAnswer::refused(refusal), [0; 12])
}

fn snps(first: u64, room: usize) -> Question {
    Question::Snps { first, room }
}

fn no_snps(refusal: u64, room: usize) -> Answer {
    Answer::Snps(Written::refused(refusal, room))
}

// These records at the front of the output, and nothing behind them.
fn records(right: &[[u64; SNP_NUMBERS]], room: usize) -> Answer {
    Answer::Snps(Written::holding(room, &right.concat(), right.len()))
}

fn no_bytes(group: &mut Group) {
    group.input();
    expect_verdict::<Gtc>(group, &[], Verdict::refused(1, 0));
    expect(group, &[], Question::Lookup(1), not_found(1));
    expect(group, &[], Question::Lookup(2000), not_found(1));
    expect(group, &[], Question::Snp(1), no_snp(1));
    expect(
        group,
        &[],
        Question::Transformation(1),
        no_transformation(1),
    );
    expect(group, &[], snps(1, 20), no_snps(1, 20));
}

fn no_entries(group: &mut Group) {
    group.input();
    let file = samples::no_entries();
    expect_verdict::<Gtc>(group, &file, Verdict::whole(8, 0));
    expect_verdict::<Gtc>(group, &file[..7], Verdict::refused(1, 0));
    expect(group, &file, Question::Lookup(1), not_found(7));
    expect(group, &file, Question::Lookup(4), not_found(10));
    expect(group, &file, Question::Snp(1), no_snp(7));
    expect(
        group,
        &file,
        Question::Transformation(1),
        no_transformation(7),
    );
    expect(group, &file, snps(1, 20), no_snps(7, 20));
}

fn one_value(group: &mut Group) {
    group.input();
    let file = samples::one_value();
    let found = Found {
        refusal: 0,
        type_code: 1,
        count: 4,
        start: 10,
        length: 4,
    };
    expect_verdict::<Gtc>(group, &file, Verdict::whole(14, 0));
    expect(group, &file, Question::Lookup(1), Answer::Found(found));
    expect(group, &file, Question::Lookup(GENOTYPES), not_found(7));
    expect_verdict::<Gtc>(group, &file[..13], Verdict::refused(1, 0));
}

// Every printed genotype: its letters and how many of them are B.
fn genotypes(group: &mut Group) {
    for (name, code) in GENOTYPE_ROWS {
        group.input();
        let snp = snp_of_code(code);
        let file = plain_file(&snp_items(&[snp])).bytes();
        let has_letters = name.bytes().all(|letter| b"AB".contains(&letter));
        let letters = name.bytes().filter(|_| has_letters);
        let answer = Snp {
            refusal: 0,
            code: code.into(),
            ploidy: letters.clone().count() as u64,
            b_alleles: letters.filter(|&letter| letter == b'B').count() as u64,
            call_1: snp.calls[0].into(),
            call_2: snp.calls[1].into(),
            score_bits: snp.score_bits.into(),
            x: snp.x.into(),
            y: snp.y.into(),
        };
        expect(group, &file, Question::Snp(1), Answer::Snp(answer));
    }
}

fn forbidden_code(group: &mut Group) {
    group.input();
    let file = samples::code_46();
    expect_verdict::<Gtc>(group, &file, Verdict::whole(file.len(), 0));
    expect(group, &file, Question::Snp(3), no_snp(11));
    expect(group, &file, Question::Snp(0), no_snp(12));
    expect(group, &file, Question::Snp(4), no_snp(12));
    let four_letters = [0, 13, 4, 2, 65, 71, 0x3F00_0000, 258, 772];
    let eight_b = [0, 45, 8, 8, 65, 71, 0x3F00_0000, 258, 772];
    let forbidden = [11, 0, 0, 0, 0, 0, 0, 0, 0];
    let file = plain_file(&snp_items(&[13, 46, 45].map(snp_of_code))).bytes();
    let all = [four_letters, forbidden, eight_b];
    for (first, room, count) in [(1, 30, 3), (1, 27, 3), (1, 26, 2), (2, 17, 1), (3, 9, 1)] {
        let right = &all[first as usize - 1..][..count];
        expect(group, &file, snps(first, room), records(right, room));
    }
    for (first, room, refusal) in [(1, 8, 13), (3, 0, 13), (0, 30, 12), (4, 0, 12)] {
        expect(group, &file, snps(first, room), no_snps(refusal, room));
    }
}

// An id of the published table is not there, and any other is not handled.
fn ids(group: &mut Group) {
    let file = samples::no_entries();
    for id in 0..=u16::MAX {
        let is_listed = ID_RANGES
            .iter()
            .any(|(low, high)| (*low..=*high).contains(&id));
        let refusal = if is_listed { 7 } else { 10 };
        expect(group, &file, Question::Lookup(id), not_found(refusal));
    }
    let mut listed = listed_ids();
    listed.sort_unstable();
    let published: Vec<u16> = ID_RANGES
        .iter()
        .flat_map(|(low, high)| *low..=*high)
        .collect();
    group.check(listed == published, &[], || format!("ids {listed:?}"));
}

fn program_lines(group: &mut Group) {
    for (file, printed) in [
        (
            samples::no_entries(),
            "GTC whole 8 of 8 unjudged 0 tail 0\n",
        ),
        (
            samples::one_value(),
            "GTC whole 14 of 14 unjudged 0 tail 0\n",
        ),
        (b"gtc".to_vec(), "GTC refused 1 at 0\n"),
        (b"gt".to_vec(), "unknown\n"),
    ] {
        expect_lines(group, &file, printed);
    }
}
