//! Files as long as those of instruments, drawn and checked.

use crate::abif::files::{lettered, run};
use crate::drawing::{check_all, Input, Wish, PLAIN};
use crate::gtc::files::snps;
use crate::sff::files::small_reads;
use compare::abif::generate::Order;
use compare::gtc::generate::{plain_file, snp_items};
use compare::random::Random;
use compare::report::Group;
use compare::sff::generate::instrument_file;

const POINTS: usize = 18_001;
const READS_LENGTH: usize = 20_000;
const SNPS: usize = 1500;
const READS: usize = 1234;

pub fn long_files(group: &mut Group) {
    let lengths = [POINTS, POINTS - 1, POINTS + 1, 600];
    let channels = run(lengths, Order::DirectoryFirst);
    let cut = channels[..channels.len() - 1].to_vec();
    let inputs = [
        Input::new("long channels", channels),
        Input::new("long channels, cut", cut),
        Input::new("many SNPs", many_snps()),
    ];
    check_all(group, &inputs, PLAIN);
    let reads = instrument_file(&mut Random::new(91), READS_LENGTH).bytes();
    let cut = reads[..reads.len() / 2].to_vec();
    let inputs = [
        Input::new("many reads", reads),
        Input::new("many reads, cut", cut),
    ];
    for number in 1..=8 {
        check_all(group, &inputs, Wish::read(number));
    }
    let reads = small_reads(READS, None);
    let start = reads.layout().reads[READS - 2];
    let inputs = [
        Input::new("very many reads", reads.bytes()),
        Input::new("very many reads, cut", reads.bytes()[..start + 9].to_vec()),
    ];
    for number in [1, READS as u64 - 1, READS as u64, 123_456_789] {
        check_all(group, &inputs, Wish::read(number));
    }
    let places: Vec<i16> = (0..1300).map(|index| 9 * index + 3).collect();
    let letters = Input::new("many letters", lettered(12_000, &places));
    check_all(group, &[letters], PLAIN);
}

// Many of them at each place, so that they share marks.
fn many_snps() -> Vec<u8> {
    let mut random = Random::new(92);
    let codes: Vec<u8> = (0..SNPS).map(|_| random.below(48) as u8).collect();
    let mut all = snps(&codes);
    for snp in &mut all {
        snp.x = random.pick(&[0, 1, 99, 40_000, 65_535]);
        snp.y = random.below(65_536) as u16;
    }
    plain_file(&snp_items(&all)).bytes()
}
