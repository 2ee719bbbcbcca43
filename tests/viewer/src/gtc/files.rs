//! Small files of SNPs to be cut and damaged.

use compare::gtc::generate::{plain_file, snp_items, text, Content, Items, Snp};

/// Files to be cut: the intensities first and last, the scores first and last, and other SNPs.
pub fn files() -> Vec<Vec<u8>> {
    let snps = snps(&[0, 1, 2, 3, 1, 2, 3, 4, 5, 6, 13, 45]);
    vec![
        ordered(&snps, [1000, 1001, 1002, 1003, 1004]),
        ordered(&snps, [1004, 1003, 1002, 1001, 1000]),
        ordered(&snps, [1002, 1000, 1004, 1001, 1003]),
        forbidden(),
        ordered(&[], [1000, 1001, 1002, 1003, 1004]),
    ]
}

/// SNPs of these genotype codes.
pub fn snps(codes: &[u8]) -> Vec<Snp> {
    let snp = |(index, &code): (usize, &u8)| Snp {
        code,
        calls: *b"AG",
        score_bits: 0x3F00_0000,
        x: 1000 * (index % 60) as u16 + 17,
        y: 9000 - 700 * (index % 12) as u16,
    };
    codes.iter().enumerate().map(snp).collect()
}

// The arrays stand in this order, a name between them.
fn ordered(snps: &[Snp], order: [u16; 5]) -> Vec<u8> {
    let mut items = snp_items(snps);
    let place = |id: u16| order.iter().position(|&other| other == id);
    items.sort_by_key(|(id, _)| place(*id));
    items.insert(3, (10, text(b"<name> & \x02\xFE")));
    items.push((2000, Content::Field(7)));
    plain_file(&items).bytes()
}

// Codes and calls that the format forbids, of some SNPs.
fn forbidden() -> Vec<u8> {
    let mut snps = snps(&[1, 46, 2, 255, 3, 0]);
    snps[2].calls = *b"AN";
    snps[5].calls = *b"--";
    let items: Items = snp_items(&snps);
    plain_file(&items).bytes()
}
