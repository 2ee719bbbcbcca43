//! Files without a fault, made for one thing each.

use super::answers::{self, SNP_NUMBERS};
use super::draft::{
    element_size, Draft, BLOCKS, NUMBER_OF_SNPS, SCANNER, SNP_ARRAYS, TEXTS, TRANSFORMATIONS,
    VALUES,
};
use super::generate::{
    array, plain_file, random_snp, random_snps, scanner, snp_items, snp_of_code, text,
    transformation, Content, Snp,
};
use super::reader::{self, ENTRY_LENGTH, HEADER_LENGTH, TRANSFORMATION_LENGTH};
use super::Gtc;
use crate::floats::SINGLES;
use crate::format::Files;
use crate::groups::whole::compare_whole;
use crate::random::Random;
use crate::report::Group;
use std::slice;

const FILES_WITH_PARTS: usize = 2000;
const FILES_WITH_RECORDS: usize = 500;

/// Every id with items of every small size, at the lowest offset and behind another item.
pub fn shapes(group: &mut Group) {
    let values = [0, 1, 13, 14, 255, 1 << 16, 1 << 31, u32::MAX];
    for id in VALUES {
        for value in values.into_iter().chain([i32::MAX as u32]) {
            placed(group, id, Content::Field(value));
        }
    }
    for id in TEXTS {
        for length in 0..=255_u8 {
            placed(group, id, text(&vec![b'a'; length.into()]));
        }
    }
    for (id, length) in BLOCKS {
        placed(group, id, Content::Item((1..=length as u8).collect()));
    }
    for lengths in 0..64 {
        let word = |place: usize| vec![b's'; [0, 1, 7, 255][lengths >> (2 * place) & 3]];
        placed(group, SCANNER, scanner(&word(0), &word(1), &word(2)));
    }
    for count in 0..=9 {
        arrays(group, count);
    }
}

fn arrays(group: &mut Group, count: usize) {
    placed(group, TRANSFORMATIONS, array(vec![[0x41; 52]; count]));
    for id in [500, 501] {
        placed(group, id, array(vec![[0x41; 2]; count]));
    }
    for (id, size) in SNP_ARRAYS {
        let elements = vec![b'A'; count * size];
        let bytes = [&(count as u32).to_le_bytes(), &elements[..]].concat();
        let number = (NUMBER_OF_SNPS, Content::Field(count as u32));
        let item = (id, Content::Item(bytes));
        compare_whole::<Gtc>(group, &plain_file(&[number.clone(), item.clone()]));
        compare_whole::<Gtc>(group, &plain_file(&[item, number]));
    }
}

fn placed(group: &mut Group, id: u16, content: Content) {
    let other = if id == 10 { 11 } else { 10 };
    let before = (other, text(b"before"));
    let item = (id, content);
    compare_whole::<Gtc>(group, &plain_file(slice::from_ref(&item)));
    compare_whole::<Gtc>(group, &plain_file(&[before.clone(), item.clone()]));
    compare_whole::<Gtc>(group, &plain_file(&[item, before]));
}

/// Every byte as a genotype, alone and at each place among others.
pub fn genotype_codes(group: &mut Group) {
    for code in 0..=u8::MAX {
        for codes in [&[code][..], &[code, 13, 0], &[13, code, 0], &[13, 0, code]] {
            let snps: Vec<Snp> = codes.iter().map(|&code| snp_of_code(code)).collect();
            compare_whole::<Gtc>(group, &plain_file(&snp_items(&snps)));
        }
    }
}

/// Every byte as each letter of a base call, at each place among others.
pub fn call_letters(group: &mut Group) {
    for letter in 0..=u8::MAX {
        for place in 0..3 {
            for which in 0..2 {
                let mut snps = [1, 2, 3].map(snp_of_code);
                snps[place].calls[which] = letter;
                compare_whole::<Gtc>(group, &plain_file(&snp_items(&snps)));
            }
        }
    }
}

/// Scores and intensities at their bounds, and every special float in every field of a
/// transformation.
pub fn numbers(group: &mut Group) {
    for bits in SINGLES {
        for intensity in [0, 1, 255, 256, 0x7FFF, 0x8000, u16::MAX] {
            let mut snp = snp_of_code(2);
            snp.score_bits = bits;
            snp.x = intensity;
            snp.y = !intensity;
            compare_whole::<Gtc>(group, &plain_file(&snp_items(&[snp_of_code(1), snp])));
        }
        for field in 0..12 {
            let mut floats = [0x3F80_0000; 12];
            floats[field] = bits;
            for version in [1, 0, -1, i32::MIN, i32::MAX, 0x0102_0304] {
                second_transformation(group, version, floats);
            }
        }
    }
}

// Between two others, at the table's end behind a count and the first of them.
fn second_transformation(group: &mut Group, version: i32, floats: [u32; 12]) {
    let plain = transformation(1, [0x4000_0000; 12]);
    let elements = [plain, transformation(version, floats), plain];
    let draft = plain_file(&[(TRANSFORMATIONS, array(elements))]);
    compare_whole::<Gtc>(group, &draft);
    let bytes = draft.bytes();
    let found = reader::transformation(&bytes, 2);
    let start = HEADER_LENGTH + ENTRY_LENGTH + 4 + TRANSFORMATION_LENGTH;
    let holds = found.is_ok_and(|found| {
        found.start == start && found.value.version == version && found.bits == floats
    });
    group.check(holds, &bytes, || {
        format!("reader {found:?}, built from {floats:?} at {start}")
    });
}

/// Tables up to the longest, and more SNPs than 8 and than 16 bits count.
pub fn long_files(group: &mut Group) {
    let mut random = Random::new(13);
    for count in [31, 32, 40, 130, 255, 256, 257, 500, 998, 999, 999, 999] {
        compare_whole::<Gtc>(group, &Gtc::long_file(&mut random, count));
    }
    for count in [127, 128, 255, 256, 257, 300, 65_535, 65_536, 65_537] {
        let mut snps = Vec::new();
        snps.resize_with(count, || random_snp(&mut random, true));
        compare_whole::<Gtc>(group, &plain_file(&snp_items(&snps)));
    }
}

/// The reader finds the very items and records that a file was made of.
pub fn parts(group: &mut Group) {
    let mut random = Random::new(14);
    for _ in 0..FILES_WITH_PARTS {
        let draft = Gtc::random_file(&mut random, 12);
        group.input();
        check_parts(group, &draft);
    }
    for count in (0..=8).chain([300]).cycle().take(FILES_WITH_RECORDS) {
        let snps = random_snps(&mut random, count);
        group.input();
        check_records(group, &snps);
    }
}

fn check_parts(group: &mut Group, draft: &Draft) {
    let bytes = draft.bytes();
    for (index, entry) in draft.entries.iter().enumerate() {
        let start = entry.offset as usize;
        let field = HEADER_LENGTH + ENTRY_LENGTH * index + 2;
        let part = match entry.id {
            id if VALUES.contains(&id) => field..field + 4,
            id if TEXTS.contains(&id) => start + 1..entry.end(),
            id if element_size(id).is_some() => start + 4..entry.end(),
            _ => start..entry.end(),
        };
        let count = part.len() / element_size(entry.id).unwrap_or(1);
        let found = reader::lookup(&bytes, entry.id);
        let holds = match &found {
            Ok(item) => (&item.part, item.count) == (&part, count as u64),
            Err(_) => entry.length == 0 && !VALUES.contains(&entry.id),
        };
        group.check(holds, &bytes, || {
            format!("id {}: reader {found:?}, built at {part:?}", entry.id)
        });
    }
}

// The records read at once, from every number on, are those read one by one.
fn check_records(group: &mut Group, snps: &[Snp]) {
    let bytes = plain_file(&snp_items(snps)).bytes();
    let mut single = Vec::new();
    for (number, built) in (1..).zip(snps) {
        let found = reader::snp(&bytes, number);
        let holds = match &found {
            Ok(snp) => is_sound(built) && is_built(snp, built),
            Err(_) => !is_sound(built),
        };
        group.check(holds, &bytes, || {
            format!("reader {found:?}, built from {built:?}")
        });
        single.extend(answers::Snp::from(found).numbers());
    }
    for skipped in 0..snps.len() {
        let mut out = vec![0; single.len()];
        let rest = &single[SNP_NUMBERS * skipped..];
        let written = reader::snps(&bytes, skipped as u64 + 1, &mut out);
        let holds = written == Ok(snps.len() - skipped) && out.starts_with(rest);
        group.check(holds, &bytes, || {
            format!("behind SNP {skipped}: at once {written:?}, one by one {rest:?}")
        });
    }
}

fn is_sound(snp: &Snp) -> bool {
    snp.code <= 45 && snp.calls.iter().all(|call| b"ACGT-".contains(call))
}

fn is_built(snp: &reader::Snp, built: &Snp) -> bool {
    let found = (snp.code, snp.calls, snp.score_bits, snp.x, snp.y);
    found == (built.code, built.calls, built.score_bits, built.x, built.y)
}
