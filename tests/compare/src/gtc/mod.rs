//! GTC: its reader, its files and its calls.

pub mod answers;
mod bounds;
mod bulk;
mod damage;
mod draft;
pub mod generate;
pub mod library;
mod normalising;
mod published;
mod questions;
pub mod reader;
mod run;
pub mod samples;
mod whole;

use crate::answers::Verdict;
use crate::format::Format;
use crate::report::NamedRun;

pub struct Gtc;

impl Format for Gtc {
    const NAME: &'static str = "GTC";
    const MARK: [u8; 4] = *b"gtc\x05";
    const READING: &'static [NamedRun] = &[
        ("published samples", published::samples),
        ("every shape and small size", whole::shapes),
        ("every genotype code", whole::genotype_codes),
        ("every call letter", whole::call_letters),
        ("special numbers", whole::numbers),
        ("long files", whole::long_files),
        ("parts as built", whole::parts),
        ("SNPs at once", bulk::snps),
        ("every id", bounds::every_id),
        ("numbers of SNPs", bounds::numbers_of_snps),
        ("ids twice", bounds::ids_twice),
        ("offsets at their bounds", bounds::offsets),
        ("entry counts around the most", bounds::entry_counts),
        ("pieces of scanner data", bounds::scanner_pieces),
        ("normalising special values", normalising::special_values),
        ("normalising random values", normalising::random_values),
    ];
    const WRITING: &'static [NamedRun] = &[];

    fn sample() -> Vec<u8> {
        samples::three_snps()
    }

    fn library_verdict(bytes: &[u8]) -> Verdict {
        library::judge(bytes)
    }

    fn reader_verdict(bytes: &[u8]) -> Verdict {
        reader::judge(bytes).into()
    }
}
