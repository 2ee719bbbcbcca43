//! SNPs at once: in every room, with contents that are refused, and of every beginning.

use super::answers::SNP_NUMBERS;
use super::draft::GENOTYPES;
use super::generate::{plain_file, snp_items, snp_of_code, Snp};
use super::library;
use crate::groups::bulk::{file_and_cuts, Bulk};
use crate::report::Group;

const MOST_SNPS: usize = 4;
const NOT_THERE: u64 = 12;
/// What may be wrong with the contents of a SNP, and what is right.
const CONTENTS: [fn(&mut Snp); 5] = [
    |_| {},
    |snp| snp.code = 46,
    |snp| snp.code = 255,
    |snp| snp.calls[0] = b'a',
    |snp| snp.calls[1] = 0,
];

/// Up to four SNPs, each in turn with every fault, and the arrays in two orders.
pub fn snps(group: &mut Group) {
    for count in 0..=MOST_SNPS {
        for place in 0..count.max(1) {
            for change in CONTENTS {
                let mut snps: Vec<Snp> = (11..).map(snp_of_code).take(count).collect();
                snps.iter_mut().skip(place).take(1).for_each(change);
                let mut items = snp_items(&snps);
                file_and_cuts(group, &plain_file(&items).bytes(), snps_of);
                items.reverse();
                file_and_cuts(group, &plain_file(&items).bytes(), snps_of);
            }
        }
    }
}

// SNP 0 is refused as the lookups are, or because it is not there.
fn snps_of(bytes: &[u8]) -> Bulk<'_, u64> {
    Bulk {
        count: match library::snp(bytes, 0).refusal {
            NOT_THERE => Ok(library::lookup(bytes, GENOTYPES).count),
            refusal => Err(refusal),
        },
        not_there: NOT_THERE,
        width: SNP_NUMBERS,
        call: Box::new(|first, out| library::snps(bytes, first, out)),
        single: Box::new(|number| {
            let snp = library::snp(bytes, number);
            (snp.refusal, snp.numbers().to_vec())
        }),
    }
}
