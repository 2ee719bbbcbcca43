//! ABIF: its reader, its writer, its files and its calls.

pub mod answers;
mod bulk;
mod calls;
mod counts;
mod damage;
mod draft;
pub mod fragments;
pub mod generate;
pub mod library;
mod listing;
mod opened;
mod published;
mod questions;
pub mod reader;
pub mod run;
pub mod samples;
pub mod tags;
mod whole;
pub mod writer;
pub mod writing;

use crate::answers::Verdict;
use crate::format::Format;
use crate::report::NamedRun;

pub struct Abif;

impl Format for Abif {
    const NAME: &'static str = "ABIF";
    const MARK: [u8; 4] = *b"ABIF";
    const READING: &'static [NamedRun] = &[
        ("published samples", published::samples),
        ("every type and small size", whole::small_sizes),
        ("dates and times at every bound", whole::dates_and_times),
        ("special floats", whole::floats),
        ("texts", whole::texts),
        ("long directories", whole::long_directories),
        ("long items", whole::long_items),
        ("listing into every room", listing::rooms),
        ("listing every field", listing::fields),
        ("whole numbers at once", bulk::whole_numbers),
        ("opened files", opened::files),
        ("counts around the most", counts::counts),
        ("tags in the tables", tags::own_rows::tables),
        ("tags of samples", tags::samples::published_and_stored),
        ("tags of own rows", tags::own_rows::own_rows),
        ("tags in long directories", tags::own_rows::long_directories),
        ("tags removed", tags::changed_rows::removed),
        ("tags retyped", tags::changed_rows::retyped),
        ("tags recounted", tags::changed_rows::recounted),
        ("tags added", tags::added_tags::one),
        ("tags added together", tags::added_tags::many),
        ("tags in unknown profiles", tags::refusals::unknown_profiles),
        ("tags after judging", tags::refusals::judging_first),
        ("tags into every room", tags::refusals::rooms),
        ("tags of every cut", tags::cuts::every_cut),
        ("tags at random", tags::random_files::files),
    ];
    const WRITING: &'static [NamedRun] = &writing::GROUPS;

    fn sample() -> Vec<u8> {
        samples::one_inline_item()
    }

    fn library_verdict(bytes: &[u8]) -> Verdict {
        library::judge(bytes)
    }

    fn reader_verdict(bytes: &[u8]) -> Verdict {
        reader::judge(bytes).into()
    }
}
