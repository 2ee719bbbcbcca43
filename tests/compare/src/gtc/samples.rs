//! The stored GTC files.

use super::draft::{Draft, NUMBER_OF_SNPS, SCANNER, TRANSFORMATIONS};
use super::generate::{
    array, plain_file, scanner, snp_items, snp_of_code, text, transformation, Content, Snp,
};
use super::run;
use crate::samples::{cut, Sample};

/// W9: no entries.
pub fn no_entries() -> Vec<u8> {
    vec![0x67, 0x74, 0x63, 0x05, 0x00, 0x00, 0x00, 0x00]
}

/// W10: one entry, id 1, value 3.
pub fn one_value() -> Vec<u8> {
    plain_file(&[(NUMBER_OF_SNPS, Content::Field(3))]).bytes()
}

/// W11: SNPs with the genotypes AABB and eight Bs, and with a code that stands for none.
pub fn code_46() -> Vec<u8> {
    plain_file(&snp_items(&[13, 45, 46].map(snp_of_code))).bytes()
}

/// Three SNPs, a name, a transformation, scanner data, and an id that is not listed.
pub fn three_snps() -> Vec<u8> {
    three().bytes()
}

fn three() -> Draft {
    let snp = |code, calls: &[u8; 2], score: f32, x, y| Snp {
        code,
        calls: *calls,
        score_bits: score.to_bits(),
        x,
        y,
    };
    let mut items = snp_items(&[
        snp(1, b"AA", 0.75, 12_000, 800),
        snp(2, b"AG", 0.5, 6_500, 6_200),
        snp(0, b"--", 0.0, 300, 250),
    ]);
    let floats = [
        100.0, 50.0, 2000.0, 1500.0, 0.125, 0.25, 0.0, 0.0, 0.0, 0.0, 0.0, 0.0,
    ];
    let by = transformation(1, floats.map(f32::to_bits));
    items.insert(1, (10, text(b"sample 1")));
    items.push((TRANSFORMATIONS, array([by])));
    items.push((2000, Content::Field(0)));
    items.push((SCANNER, scanner(b"iScan", b"3.2.45", b"teacher")));
    plain_file(&items)
}

pub fn all() -> Vec<Sample> {
    let mut samples = whole_samples();
    samples.extend(refused_at_the_table());
    samples.extend(refused_at_an_entry());
    samples.extend(a_run());
    samples
}

// A whole sample, and the same cut in the middle of its scores.
fn a_run() -> [Sample; 2] {
    let whole = run::run().bytes();
    let shorter = whole.len() - run::scores_length() / 2;
    [
        ("run.gtc", whole.clone()),
        ("cut-run.gtc", cut(whole, shorter)),
    ]
}

fn whole_samples() -> Vec<Sample> {
    let mut shared = three();
    shared.entries[3].offset = shared.entries[2].offset;
    let mut longer = three_snps();
    longer.extend(b"bytes that no entry names");
    vec![
        ("no-entries.gtc", no_entries()),
        ("one-value.gtc", one_value()),
        ("three-snps.gtc", three_snps()),
        ("one-array-for-both-intensities.gtc", shared.bytes()),
        ("code-46.gtc", code_46()),
        ("bytes-behind-the-end.gtc", longer),
    ]
}

fn refused_at_the_table() -> Vec<Sample> {
    let changed = |change: fn(&mut Draft)| {
        let mut draft = three();
        change(&mut draft);
        draft.bytes()
    };
    vec![
        ("mark-alone.gtc", b"gtc".to_vec()),
        ("cut-in-the-table.gtc", cut(one_value(), 13)),
        ("version-4.gtc", changed(|draft| draft.version = 4)),
        (
            "count-below-zero.gtc",
            changed(|draft| draft.entry_count = -1),
        ),
        (
            "thousand-entries.gtc",
            changed(|draft| draft.entry_count = 1000),
        ),
    ]
}

fn refused_at_an_entry() -> Vec<Sample> {
    let changed = |change: fn(&mut Draft)| {
        let mut draft = three();
        change(&mut draft);
        draft.bytes()
    };
    let whole = three_snps();
    let length = whole.len();
    vec![
        ("cut-in-the-scanner-data.gtc", cut(whole, length - 1)),
        ("id-twice.gtc", changed(|draft| draft.entries[3].id = 1000)),
        (
            "offset-in-the-table.gtc",
            changed(|draft| draft.entries[1].offset = draft.table_end() as u32 - 1),
        ),
        (
            "two-snps-for-three.gtc",
            changed(|draft| draft.entries[0].offset = 2),
        ),
        (
            "no-number-of-snps.gtc",
            changed(|draft| draft.entries[0].id = 2),
        ),
    ]
}
