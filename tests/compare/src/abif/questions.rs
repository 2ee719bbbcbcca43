//! Calls with their arguments, asked of the library and of the reader alike.

use super::answers::{Element, Opened, Part};
use super::calls::Call;
use super::draft::Draft;
use super::library;
use super::reader::{self, Carried, Entry, Tag};
use super::tags::check::{self, FINDING_NUMBERS};
use super::tags::profiles;
use super::Abif;
use crate::answers::{Found, Written};
use crate::arguments::{
    bulk_rooms_from, numbers_around, rooms, sample, PAST_16_BITS, PAST_32_BITS,
};
use crate::big_endian::u32_at;
use crate::format::{self, Calls};

#[derive(Clone, Copy, Debug)]
pub enum Question {
    Open,
    Plain(Call),
    /// The call for an opened file, which carries its directory's place and count.
    Opened(Carried, Call),
    WholeNumbers {
        tag: Tag,
        first: u64,
        room: usize,
    },
    CheckTags {
        profile: u64,
        room: usize,
    },
}

#[derive(Clone, Debug, PartialEq)]
pub enum Answer {
    Opened(Opened),
    Found(Found),
    Element(Element),
    Part(Part),
    Entries(Written<Entry>),
    Numbers(Written<i64>),
}

impl format::Answer for Answer {
    fn refusal(&self) -> u64 {
        match self {
            Answer::Opened(opened) => opened.refusal,
            Answer::Found(found) => found.refusal,
            Answer::Element(element) => element.refusal,
            Answer::Part(part) => part.refusal,
            Answer::Entries(written) => written.listed.refusal,
            Answer::Numbers(written) => written.listed.refusal,
        }
    }

    fn is_untouched(&self) -> bool {
        match self {
            Answer::Entries(written) => written.is_untouched(),
            Answer::Numbers(written) => written.is_untouched(),
            _ => true,
        }
    }
}

impl format::Question for Question {
    type Answer = Answer;

    fn ask_library(&self, bytes: &[u8]) -> Answer {
        match *self {
            Question::Open => Answer::Opened(library::open(bytes)),
            Question::Plain(call) => call.ask_library(bytes),
            Question::Opened(carried, call) => call.ask_library_opened(bytes, carried),
            Question::WholeNumbers { tag, first, room } => {
                let call = |out: &mut [i64]| library::whole_numbers(bytes, tag, first, out);
                Answer::Numbers(Written::by(room, call))
            }
            Question::CheckTags { profile, room } => {
                let call = |out: &mut [i64]| library::check_tags(bytes, profile, out);
                Answer::Numbers(Written::by(room, call))
            }
        }
    }

    fn ask_reader(&self, bytes: &[u8]) -> Answer {
        match *self {
            Question::Open => Answer::Opened(reader::open(bytes).into()),
            Question::Plain(call) => call.ask_reader(bytes),
            Question::Opened(carried, call) => call.ask_reader_opened(bytes, carried),
            Question::WholeNumbers { tag, first, room } => {
                let call = |out: &mut [i64]| reader::whole_numbers(bytes, tag, first, out).into();
                Answer::Numbers(Written::by(room, call))
            }
            Question::CheckTags { profile, room } => {
                let call = |out: &mut [i64]| check::check_tags(bytes, profile, out).into();
                Answer::Numbers(Written::by(room, call))
            }
        }
    }
}

impl Calls for Abif {
    type Question = Question;

    // For the tags of the file and of the draft, and for tags that are in neither; of the opened
    // file with the right place and count and with wrong ones in turn; in one profile in turn.
    fn questions(bytes: &[u8], draft: Option<&Draft>) -> Vec<Question> {
        let tags = asked_tags(bytes, &draft.map_or(Vec::new(), Draft::tags));
        let right = stated(bytes);
        let wrong = wrong_ones(right).into_iter();
        let carried: Vec<Carried> = wrong.flat_map(|wrong| [right, wrong]).collect();
        let turns = carried.iter().cycle().skip(bytes.len() % carried.len());
        let mut list = vec![Question::Open];
        for (call, &carried) in calls(bytes, &tags).into_iter().zip(turns) {
            list.push(Question::Plain(call));
            list.push(Question::Opened(carried, call));
        }
        for tag in tags {
            whole_number_questions(tag, count_of(bytes, tag), bytes.len(), &mut list);
        }
        list.extend(check_questions(
            bytes,
            bytes.len() as u64 % profiles::COUNT + 1,
        ));
        let profile = profiles::UNKNOWN[bytes.len() % profiles::UNKNOWN.len()];
        list.push(Question::CheckTags { profile, room: 3 });
        list
    }
}

/// A selection of the file's tags and of those in `more`, and tags that are in neither.
pub fn asked_tags(bytes: &[u8], more: &[Tag]) -> Vec<Tag> {
    let mut tags = tags_of(bytes);
    for &tag in more {
        if !tags.contains(&tag) {
            tags.push(tag);
        }
    }
    [sample(&tags), absent_tags(&tags)].concat()
}

/// The calls that there are for an opened file too.
pub fn calls(bytes: &[u8], tags: &[Tag]) -> Vec<Call> {
    let mut calls = Vec::new();
    for &tag in tags {
        calls.push(Call::Lookup(tag));
        calls.push(Call::Text(tag));
        for index in numbers_around(count_of(bytes, tag)) {
            calls.push(Call::Element { tag, index });
        }
    }
    let entries = stated(bytes).count.min(bytes.len() as u64 / 28);
    for room in rooms(entries as usize) {
        calls.push(Call::List { room });
    }
    calls
}

/// The place and count in the header, whether or not opening takes them.
pub fn stated(bytes: &[u8]) -> Carried {
    let field = |at| u32_at(bytes, at) as i32 as u64;
    if bytes.len() < 34 {
        return Carried {
            place: 128,
            count: 1,
        };
    }
    Carried {
        place: field(26),
        count: field(18),
    }
}

/// Places and counts near the right ones, far from them, and equal to them in some bits only.
pub fn wrong_ones(right: Carried) -> Vec<Carried> {
    let Carried { place, count } = right;
    let others = |number: u64| {
        let near = [number.wrapping_sub(1), number.wrapping_add(1), 0, u64::MAX];
        let far = [PAST_16_BITS, 1 << 31, PAST_32_BITS, 1 << 63];
        let far = far.map(|more| number.wrapping_add(more));
        [near, far].concat()
    };
    let mut wrong = vec![
        Carried { place: 0, count: 0 },
        Carried {
            place: count,
            count: place,
        },
        Carried {
            place: place.wrapping_add(28),
            count: count.wrapping_sub(1),
        },
    ];
    for place in others(place) {
        wrong.push(Carried { place, count });
    }
    for count in others(count) {
        wrong.push(Carried { place, count });
    }
    wrong.retain(|other| *other != right);
    wrong
}

fn tags_of(bytes: &[u8]) -> Vec<Tag> {
    let mut tags = Vec::new();
    if let Ok(directory) = reader::open(bytes) {
        for entry in directory.entries(bytes) {
            if !tags.contains(&entry.tag) {
                tags.push(entry.tag);
            }
        }
    }
    tags
}

// The same name with another number, and another name with the same number.
fn absent_tags(tags: &[Tag]) -> Vec<Tag> {
    let model = tags.last().copied().unwrap_or(Tag::new(b"ABCD", 1));
    let mut number = model;
    let mut name = model;
    while tags.contains(&number) {
        number.number = number.number.wrapping_add(1);
    }
    while tags.contains(&name) {
        name.name = name.name.wrapping_add(0x0100_0000);
    }
    vec![number, name]
}

fn count_of(bytes: &[u8], tag: Tag) -> u64 {
    reader::lookup(bytes, tag).map_or(2, |item| item.count)
}

fn whole_number_questions(tag: Tag, count: u64, length: usize, list: &mut Vec<Question>) {
    for first in numbers_around(count) {
        for room in bulk_rooms_from(first, count, length, 1) {
            list.push(Question::WholeNumbers { tag, first, room });
        }
    }
}

/// The check in this profile, in rooms around what it writes.
pub fn check_questions(bytes: &[u8], profile: u64) -> impl Iterator<Item = Question> {
    let findings = check::findings_of(bytes, profile).map_or(1, |findings| findings.len());
    let rooms = rooms(FINDING_NUMBERS * findings).into_iter();
    rooms.map(move |room| Question::CheckTags { profile, room })
}
