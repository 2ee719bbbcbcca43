//! The genotypes of one sample as an instrument stores them, in clusters by their intensities.

use super::draft::{Draft, SCANNER, TRANSFORMATIONS};
use super::generate::{array, plain_file, scanner, snp_items, text, transformation, Content, Snp};
use crate::random::Random;

const SNPS: usize = 400;
const NOT_CALLED: u8 = 0;
/// The letters that a SNP's alleles A and B stand for.
const ALLELES: [[u8; 2]; 4] = [*b"AG", *b"AC", *b"TG", *b"TC"];

/// Where a genotype's intensities lie: the middle, and how far from it they may be.
struct Cluster {
    code: u8,
    x: (usize, usize),
    y: (usize, usize),
}

const CLUSTERS: [Cluster; 4] = [
    Cluster {
        code: NOT_CALLED,
        x: (4200, 2400),
        y: (4000, 2400),
    },
    Cluster {
        code: 1,
        x: (13_500, 3600),
        y: (1300, 800),
    },
    Cluster {
        code: 2,
        x: (8200, 2200),
        y: (7900, 2200),
    },
    Cluster {
        code: 3,
        x: (1500, 900),
        y: (12_800, 3400),
    },
];

/// The sample, with the intensities at the front of the file and the scores at its end.
pub fn run() -> Draft {
    let mut random = Random::new(63);
    let snps: Vec<Snp> = (0..SNPS).map(|_| snp(&mut random)).collect();
    let mut items = snp_items(&snps);
    let scores = items.pop();
    items.extend(values());
    items.extend(names());
    items.extend(measures(&snps));
    items.extend(scores);
    let mut draft = plain_file(&items);
    draft.entries.sort_by_key(|entry| entry.id);
    draft
}

/// How many bytes the scores take.
pub const fn scores_length() -> usize {
    4 * SNPS
}

fn snp(random: &mut Random) -> Snp {
    let which = random.pick(&[0, 1, 1, 1, 1, 1, 2, 2, 2, 2, 2, 3, 3, 3, 3, 3]);
    let cluster = &CLUSTERS[which];
    let [a, b] = random.pick(&ALLELES);
    let (calls, score) = match cluster.code {
        NOT_CALLED => (*b"--", random.between(0, 140)),
        1 => ([a, a], random.between(620, 960)),
        2 => ([a, b], random.between(580, 930)),
        _ => ([b, b], random.between(620, 960)),
    };
    Snp {
        code: cluster.code,
        calls,
        score_bits: (score as f32 / 1000.0).to_bits(),
        x: near(random, cluster.x),
        y: near(random, cluster.y),
    }
}

// Four draws together lie closer to the middle than one does.
fn near(random: &mut Random, (middle, spread): (usize, usize)) -> u16 {
    let draws: usize = (0..4).map(|_| random.below(2 * spread + 1)).sum();
    (middle - spread + draws / 4) as u16
}

fn values() -> [(u16, Content); 2] {
    let ploidy = (2, Content::Field(2));
    let ploidy_type = (3, Content::Field(1));
    [ploidy, ploidy_type]
}

fn names() -> [(u16, Content); 10] {
    [
        (10, text(b"lesson 4, tube 7")),
        (11, text(b"plate 2")),
        (12, text(b"C05")),
        (100, text(b"school-400.egt")),
        (101, text(b"school-400.bpm")),
        (200, text(b"3/14/2007 9:26 AM")),
        (201, text(b"3/14/2007 11:02 AM")),
        (300, text(b"1.6.3.1")),
        (SCANNER, scanner(b"iScan", b"3.2.45", b"teacher")),
        (1016, text(b"4019190002_R01C01")),
    ]
}

fn measures(snps: &[Snp]) -> [(u16, Content); 3] {
    let floats = [
        210.0, 180.0, 9000.0, 8700.0, 0.03125, 0.0625, 0.0, 0.0, 0.0, 0.0, 0.0, 0.0,
    ];
    let by = transformation(1, floats.map(f32::to_bits));
    let called = snps.iter().filter(|snp| snp.code != NOT_CALLED).count();
    let rate = called as f32 / SNPS as f32;
    [
        (TRANSFORMATIONS, array([by])),
        (1006, Content::Item(rate.to_le_bytes().to_vec())),
        (1007, Content::Item(b"U".to_vec())),
    ]
}
