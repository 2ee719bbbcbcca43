//! What a verdict means to a student, and the words for a refused part.

use crate::abif::contents::{Channel, Contents};
use crate::gtc::listed::name_of;
use crate::gtc::refusals::ARRAYS;
use crate::picture::grouped;
use crate::verdict::{self, Format};
use crate::words::shown;
use compare::abif::reader::open;
use compare::gtc::reader::{ids, lookup};
use compare::refusal::{Refusal, Refused};
use compare::sff::reader::header;

const COPY: &str = "Copy the file again from the instrument.";
const CARE: &str =
    "Copy the file again from the instrument; if it says the same again, ask your teacher.";
const ENDS_IN_ITS_HEADER: &str =
    "this file ends inside its own header, so nothing in it can be found.";
const HEADER_CONTRADICTS: &str =
    "the header contradicts itself, so nothing in this file can be found.";
const ABIF_HEADER: usize = 128;
const GTC_HEADER: usize = 8;

/// The arrays of the SNPs, in the order that they are told in.

/// A headline, which a whole file has not, and what stands behind it.
pub struct Explanation {
    pub headline: Option<&'static str>,
    pub sentences: String,
}

impl Explanation {
    fn new(headline: &'static str, sentences: &[&str]) -> Explanation {
        let said: Vec<&str> = sentences
            .iter()
            .copied()
            .filter(|it| !it.is_empty())
            .collect();
        Explanation {
            headline: Some(headline),
            sentences: said.join(" "),
        }
    }
}

/// What is said of a file, where there is something to say.
pub fn explanation(bytes: &[u8]) -> Option<Explanation> {
    let format = Format::of(bytes);
    match verdict::refused(bytes) {
        None if format == Format::Unknown => Some(unknown(bytes)),
        None => behind_the_end(bytes),
        Some(refused) if refused.refusal == Refusal::OtherVersion => Some(other_version(format)),
        Some(refused) if format == Format::Sff => Some(of_sff(bytes, refused)),
        Some(refused) => Some(of_table(bytes, format, refused)),
    }
}

fn unknown(bytes: &[u8]) -> Explanation {
    if bytes.is_empty() {
        return Explanation::new("EMPTY", &["this file has no bytes at all.", COPY]);
    }
    let sentences = [
        "it does not begin as an ABIF, SFF or GTC file does.",
        "Look for the right file, or copy it again from the instrument.",
    ];
    Explanation::new("NOT A SEQUENCING FILE", &sentences)
}

fn behind_the_end(bytes: &[u8]) -> Option<Explanation> {
    let tail = match verdict::whole(bytes)?.tail {
        0 => return None,
        1 => "1 byte".to_string(),
        tail => format!("{} bytes", grouped(tail as i64)),
    };
    let meaning = "nothing of the file is missing, and what lies behind its end is no part of it.";
    Some(Explanation {
        headline: None,
        sentences: format!("whole, {tail} behind the end: {meaning}"),
    })
}

fn other_version(format: Format) -> Explanation {
    let version = if format == Format::Gtc { 5 } else { 1 };
    let sentences = [
        "this file is written in a version of its format that cannot be read here.",
        &format!("Save it again in version {version} of the format, or ask your teacher."),
    ];
    Explanation::new("ANOTHER VERSION", &sentences)
}

fn of_sff(bytes: &[u8], refused: Refused) -> Explanation {
    let is_cut = refused.refusal == Refusal::CutShort;
    let header = match header(bytes) {
        Ok(header) => header,
        Err(_) if is_cut => return Explanation::new("NOT COMPLETE", &[ENDS_IN_ITS_HEADER, COPY]),
        Err(_) => return Explanation::new("DAMAGED", &[HEADER_CONTRADICTS, COPY]),
    };
    let reads = grouped(header.reads.into());
    let k = grouped(refused.entry as i64);
    match (refused.entry, is_cut) {
        (0, true) => Explanation::new(
            "NOT COMPLETE",
            &[
                "this file ends inside its index, so its end is missing.",
                COPY,
            ],
        ),
        (0, false) => Explanation::new(
            "CONTRADICTS ITSELF",
            &[
                "the index is not where the header says. Every read is there.",
                CARE,
            ],
        ),
        (entry, true) => {
            let cut = format!(
                "this file ends inside read {k} of {reads}, so its end is missing (or the header is damaged)."
            );
            Explanation::new("NOT COMPLETE", &[&cut, &before(entry), COPY])
        }
        (entry, false) => {
            let lengths = format!(
                "the lengths that read {k} gives of itself do not fit each other, so neither it nor the reads \
                 behind it can be found."
            );
            Explanation::new("CONTRADICTS ITSELF", &[&lengths, &before(entry), CARE])
        }
    }
}

fn before(entry: usize) -> String {
    match entry {
        1 => "No read is there.".to_string(),
        2 => "Read 1 is there.".to_string(),
        _ => format!("Reads 1 to {} are there.", grouped(entry as i64 - 1)),
    }
}

// The formats that have a table of contents.
fn of_table(bytes: &[u8], format: Format, refused: Refused) -> Explanation {
    if refused.entry == 0 {
        return of_its_header(bytes, format, refused.refusal);
    }
    let item = match format {
        Format::Abif => abif_item(bytes, refused.entry),
        _ => gtc_item(ids(bytes)[refused.entry - 1]),
    };
    let parts = match format {
        Format::Abif => channels(bytes, refused.refusal, &item),
        _ => arrays(bytes, refused.refusal, &item),
    };
    let twice = match format {
        Format::Abif => format!("{item} stands"),
        _ => format!("{item}, or the number of SNPs that it needs, stands"),
    };
    let contradicts =
        |sentence: String| Explanation::new("CONTRADICTS ITSELF", &[&sentence, &parts, CARE]);
    match refused.refusal {
        Refusal::CutShort => {
            let cut = "this file is shorter than its own table of contents says, so its end is missing (or the table \
                       is damaged).";
            Explanation::new("NOT COMPLETE", &[cut, &parts, COPY])
        }
        Refusal::BadOffset => contradicts(format!(
            "{item} cannot stand where the table of contents says."
        )),
        Refusal::NotThere => contradicts(format!(
            "{item} needs the number of SNPs, which is not in the file."
        )),
        Refusal::TagTwice => contradicts(format!(
            "{twice} in the table of contents twice, and nobody can say which of the two is right."
        )),
        Refusal::BadSizes => {
            contradicts(format!("the sizes given for {item} do not fit each other."))
        }
        _ => {
            let unknown = format!("{item} is of a type that the format does not know.");
            Explanation::new("NOT UNDERSTOOD", &[&unknown, &parts, CARE])
        }
    }
}

fn of_its_header(bytes: &[u8], format: Format, refusal: Refusal) -> Explanation {
    let fixed = if format == Format::Abif {
        ABIF_HEADER
    } else {
        GTC_HEADER
    };
    match refusal {
        Refusal::CutShort if bytes.len() < fixed => {
            Explanation::new("NOT COMPLETE", &[ENDS_IN_ITS_HEADER, COPY])
        }
        Refusal::CutShort => {
            let missing = "the table of contents is missing, so nothing in this file can be found.";
            Explanation::new("NOT COMPLETE", &[missing, COPY])
        }
        Refusal::TooManyEntries => {
            let many = "the table of contents says that it has more than 999 entries, and no more are read here.";
            Explanation::new("TOO MANY ENTRIES", &[many, CARE])
        }
        Refusal::BadOffset => {
            let place =
                "the table of contents cannot stand where the header says, so nothing in this file can be found.";
            Explanation::new("DAMAGED", &[place, COPY])
        }
        _ => Explanation::new("DAMAGED", &[HEADER_CONTRADICTS, COPY]),
    }
}

fn abif_item(bytes: &[u8], entry: usize) -> String {
    let directory = open(bytes).expect("a directory, where an entry is refused");
    let tag = directory
        .entries(bytes)
        .nth(entry - 1)
        .expect("the entry")
        .tag;
    format!("{} {}", shown(&tag.name.to_be_bytes()), tag.number)
}

fn gtc_item(id: u16) -> String {
    format!("{} ({id})", name_of(id).unwrap_or("unknown"))
}

// The item at fault where a cut is and it is no channel, then the channels.
fn channels(bytes: &[u8], refusal: Refusal, item: &str) -> String {
    let channels = Contents::of(bytes, false, None).channels;
    let is_channel = channels.iter().any(|channel| channel.part == item);
    let part = |channel: &Channel| {
        let state = match channel.values {
            Ok(_) => State::Read,
            Err(Refusal::NotThere) => State::Missing,
            Err(_) => State::Unread,
        };
        (channel_name(channel), state)
    };
    let parts: Vec<Part> = channels.iter().map(part).collect();
    let told = told_of(
        &parts,
        "Every channel could be read.",
        ["Channel ", "Channels "],
    );
    behind_the_item(refusal == Refusal::CutShort && !is_channel, item, told)
}

fn channel_name(channel: &Channel) -> String {
    match channel.base {
        Some(base) => format!("{base} ({})", channel.part),
        None => channel.part.clone(),
    }
}

fn arrays(bytes: &[u8], refusal: Refusal, item: &str) -> String {
    let is_array = ARRAYS.iter().any(|&id| gtc_item(id) == item);
    let state = |id| match lookup(bytes, id) {
        Ok(_) => State::Read,
        Err(_) if ids(bytes).contains(&id) => State::Unread,
        Err(_) => State::Missing,
    };
    let parts = ARRAYS.map(|id| (gtc_item(id), state(id)));
    let told = told_of(&parts, "Every array of the SNPs could be read.", ["", ""]);
    behind_the_item(refusal == Refusal::CutShort && !is_array, item, told)
}

/// Whether a part could be read, could not, or is not in the file.
#[derive(Clone, Copy, PartialEq, Eq)]
enum State {
    Read,
    Unread,
    Missing,
}

type Part = (String, State);

// What is told of the parts: those that could not be read, and those that are not there; nothing where none is.
fn told_of(parts: &[Part], all: &str, [one, many]: [&str; 2]) -> Vec<String> {
    let named = |state: State| {
        let chosen = parts.iter().filter(|part| part.1 == state);
        chosen.map(|part| part.0.clone()).collect::<Vec<String>>()
    };
    let missing = named(State::Missing);
    let unread = named(State::Unread);
    if missing.len() == parts.len() {
        return Vec::new();
    }
    if missing.is_empty() && unread.is_empty() {
        return vec![all.to_string()];
    }
    let before = |names: &[String]| if names.len() == 1 { one } else { many };
    let are = if missing.len() == 1 { "is" } else { "are" };
    let read = format!("{}{} could not be read.", before(&unread), joined(&unread));
    let there = format!(
        "{}{} {are} not in this file.",
        before(&missing),
        joined(&missing)
    );
    let told = [(unread, read), (missing, there)].into_iter();
    told.filter(|it| !it.0.is_empty()).map(|it| it.1).collect()
}

fn behind_the_item(is_told: bool, item: &str, told: Vec<String>) -> String {
    let first = is_told.then(|| format!("{item} could not be read."));
    let sentences: Vec<String> = first.into_iter().chain(told).collect();
    sentences.join(" ")
}

fn joined(names: &[String]) -> String {
    match names {
        [before @ .., last] if !before.is_empty() => format!("{} and {last}", before.join(", ")),
        _ => names.concat(),
    }
}

/// The words for a part that is refused with this number.
pub fn words(refusal: u64) -> &'static str {
    match refusal {
        1 => "missing: the file ends too soon",
        2 => "of another kind",
        3 => "of another version",
        4 => "the header contradicts itself",
        5 => "more than 999 entries",
        6 => "cannot stand where the table of contents says",
        7 => "not in this file",
        8 => "stands in the file twice",
        9 => "its sizes do not fit each other",
        10 => "of a type that is not shown this way",
        11 => "holds a value that the format forbids",
        12 => "has no values",
        13 => "the room lent is too small",
        _ => "not in ascending order",
    }
}
