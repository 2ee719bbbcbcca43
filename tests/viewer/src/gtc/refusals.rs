//! What is said of a GTC file's items that are refused.

use crate::sentences;
use compare::gtc::reader::{ids, lookup};

/// The arrays of the SNPs, in the order in which a SNP's record is looked up.
pub const ARRAYS: [u16; 5] = [1002, 1003, 1004, 1000, 1001];

/// The words for an item: one that stands in the table may be refused for want of the number of SNPs.
pub fn words(bytes: &[u8], id: u16, refusal: u64) -> &'static str {
    let places = ids(bytes).into_iter().filter(|&other| other == id);
    match (places.count(), refusal) {
        (1, 7) => "needs the number of SNPs, which is not in this file",
        (1, 8) => "needs the number of SNPs, which stands in the file twice",
        _ => sentences::words(refusal),
    }
}

/// The words for all SNPs, which are refused as the first array that is.
pub fn words_of_snps(bytes: &[u8], refusal: u64) -> &'static str {
    let mut arrays = ARRAYS.into_iter();
    match arrays.find(|&id| lookup(bytes, id).is_err()) {
        Some(id) => words(bytes, id, refusal),
        None => sentences::words(refusal),
    }
}
