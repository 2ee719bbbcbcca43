//! SFF: its reader, its writer, its files and its calls.

pub mod answers;
mod bulk;
mod damage;
pub mod draft;
pub mod generate;
pub mod library;
mod published;
mod questions;
pub mod reader;
mod run;
pub mod samples;
mod whole;
pub mod writer;
pub mod writing;

use crate::answers::Verdict;
use crate::format::Format;
use crate::report::NamedRun;

pub struct Sff;

impl Format for Sff {
    const NAME: &'static str = "SFF";
    const MARK: [u8; 4] = *b".sff";
    const READING: &'static [NamedRun] = &[
        ("published samples", published::samples),
        ("names and sizes", whole::names_and_sizes),
        ("index at every boundary", whole::index_places),
        ("clips at every bound", whole::clips),
        ("flow steps", whole::flow_steps),
        ("lengths at their bounds", whole::lengths),
        ("long files", whole::long_files),
        ("parts as built", whole::parts),
        ("reads at once", bulk::reads),
    ];
    const WRITING: &'static [NamedRun] = &writing::GROUPS;

    fn sample() -> Vec<u8> {
        samples::one_read()
    }

    fn library_verdict(bytes: &[u8]) -> Verdict {
        library::judge(bytes)
    }

    fn reader_verdict(bytes: &[u8]) -> Verdict {
        reader::judge(bytes).into()
    }
}
