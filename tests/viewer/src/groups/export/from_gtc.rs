//! SNPs of GTC files.

use super::{mark, Exported};
use crate::gtc::files::snps;
use crate::gtc::refusals::words_of_snps;
use compare::floats::SINGLES;
use compare::gtc::generate::{plain_file, snp_items};
use compare::gtc::reader::{Snp, SnpArrays};
use compare::refusal::Refusal;

/// More SNPs than are read at once.
const MANY: usize = 9000;
const NULL_GENOTYPE: u8 = 4;

pub fn exported(bytes: &[u8]) -> Exported {
    let arrays = match SnpArrays::of(bytes) {
        Ok(arrays) if arrays.count() == 0 => {
            return Exported::refused("SNPs", Refusal::NoSuchElement)
        }
        Ok(arrays) => arrays,
        Err(refusal) => {
            let number = refusal as u64;
            let words = words_of_snps(bytes, number);
            return Exported::nothing(1, format!("SNPs: {words} (refused {number})"));
        }
    };
    let mark = mark(bytes, ',');
    let end = if mark.is_empty() { "" } else { ",refused" };
    let mut exported = Exported::default();
    exported.write(&format!("snp,genotype,base call,score,x,y{mark}\n"));
    for number in 1..=arrays.count() as u64 {
        let snp = arrays.snp(number);
        exported.status |= i32::from(snp.is_err());
        let fields = match snp {
            Ok(snp) => fields(&snp),
            Err(refusal) => format!("refused {},,,,", refusal as u64),
        };
        exported.write(&format!("{number},{fields}{end}\n"));
    }
    exported
}

fn fields(snp: &Snp) -> String {
    let genotype = match (snp.ploidy, snp.code) {
        (0, NULL_GENOTYPE) => "NULL".to_string(),
        (0, _) => "NC".to_string(),
        (ploidy, _) => {
            let a_alleles = ploidy - snp.b_alleles;
            "A".repeat(a_alleles.into()) + &"B".repeat(snp.b_alleles.into())
        }
    };
    let calls = String::from_utf8_lossy(&snp.calls);
    let score = nine_digits(f32::from_bits(snp.score_bits));
    format!("{genotype},{calls},{score},{},{}", snp.x, snp.y)
}

// A number with nine digits that count, as C writes it.
fn nine_digits(number: f32) -> String {
    let sign = if number.is_sign_negative() { "-" } else { "" };
    let number = f64::from(number).abs();
    if number.is_nan() {
        return format!("{sign}nan");
    }
    if number.is_infinite() {
        return format!("{sign}inf");
    }
    let scientific = format!("{number:.8e}");
    let (digits, exponent) = scientific.split_once('e').unwrap_or((&scientific, "0"));
    let exponent: i32 = exponent.parse().unwrap_or(0);
    if (-4..9).contains(&exponent) {
        let places = (8 - exponent) as usize;
        return format!("{sign}{}", without_noughts(&format!("{number:.places$}")));
    }
    let side = if exponent < 0 { '-' } else { '+' };
    format!(
        "{sign}{}e{side}{:02}",
        without_noughts(digits),
        exponent.abs()
    )
}

fn without_noughts(number: &str) -> &str {
    match number.contains('.') {
        true => number.trim_end_matches('0').trim_end_matches('.'),
        false => number,
    }
}

/// SNPs of every genotype, some of them forbidden, with scores of every kind.
pub fn many_snps() -> Vec<u8> {
    let codes: Vec<u8> = (0..=46).cycle().take(MANY).collect();
    let mut snps = snps(&codes);
    for (snp, bits) in snps.iter_mut().zip(SINGLES.iter().copied().cycle()) {
        snp.score_bits = bits;
    }
    plain_file(&snp_items(&snps)).bytes()
}
