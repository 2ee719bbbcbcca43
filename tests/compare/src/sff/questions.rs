//! Calls with their arguments, asked of the library and of the reader alike.

use super::answers::{Flow, Header, Read, READ_NUMBERS};
use super::draft::Draft;
use super::library;
use super::reader::{self, FIXED_READ_HEADER};
use super::Sff;
use crate::answers::Written;
use crate::arguments::{bulk_rooms_from, distinct, numbers_around};
use crate::format::{self, Calls};

#[derive(Clone, Copy, Debug)]
pub enum Question {
    Header,
    Read(u64),
    Reads { first: u64, room: usize },
    FlowOfBase { number: u64, base: u64 },
}

#[derive(Clone, Debug, PartialEq)]
pub enum Answer {
    Header(Header),
    Read(Read),
    Reads(Written<u64>),
    Flow(Flow),
}

impl format::Answer for Answer {
    fn refusal(&self) -> u64 {
        match self {
            Answer::Header(header) => header.refusal,
            Answer::Read(read) => read.refusal,
            Answer::Reads(written) => written.listed.refusal,
            Answer::Flow(flow) => flow.refusal,
        }
    }

    fn is_untouched(&self) -> bool {
        match self {
            Answer::Reads(written) => written.is_untouched(),
            _ => true,
        }
    }
}

impl format::Question for Question {
    type Answer = Answer;

    fn ask_library(&self, bytes: &[u8]) -> Answer {
        match *self {
            Question::Header => Answer::Header(library::header(bytes)),
            Question::Read(number) => Answer::Read(library::read(bytes, number)),
            Question::Reads { first, room } => {
                let call = |out: &mut [u64]| library::reads(bytes, first, out);
                Answer::Reads(Written::by(room, call))
            }
            Question::FlowOfBase { number, base } => {
                Answer::Flow(library::flow_of_base(bytes, number, base))
            }
        }
    }

    fn ask_reader(&self, bytes: &[u8]) -> Answer {
        match *self {
            Question::Header => Answer::Header(reader::header(bytes).into()),
            Question::Read(number) => Answer::Read(reader::read(bytes, number).into()),
            Question::Reads { first, room } => {
                let call = |out: &mut [u64]| reader::reads(bytes, first, out).into();
                Answer::Reads(Written::by(room, call))
            }
            Question::FlowOfBase { number, base } => {
                Answer::Flow(reader::flow_of_base(bytes, number, base).into())
            }
        }
    }
}

impl Calls for Sff {
    type Question = Question;

    // For the reads of the file and for reads that it does not have.
    fn questions(bytes: &[u8], _draft: Option<&Draft>) -> Vec<Question> {
        let reached = reader::reached(bytes).len();
        let stated = reader::header(bytes).map_or(1, |header| header.reads.into());
        let mut list = vec![Question::Header];
        for number in numbers(stated, reached as u64) {
            list.push(Question::Read(number));
            flow_questions(bytes, number, &mut list);
            for room in bulk_rooms_from(number, stated, most_reads(bytes), READ_NUMBERS) {
                let first = number;
                list.push(Question::Reads { first, room });
            }
        }
        list
    }
}

// No file has more reads than their headers have room.
fn most_reads(bytes: &[u8]) -> usize {
    bytes.len() / FIXED_READ_HEADER
}

// The first reads, around the last, the first that cannot be reached, and none.
fn numbers(stated: u64, reached: u64) -> Vec<u64> {
    let mut numbers = numbers_around(stated);
    numbers.extend(0..=stated.min(8));
    numbers.extend([stated.saturating_sub(1), reached, reached + 1]);
    distinct(numbers)
}

// A read that is refused is asked for few bases.
fn flow_questions(bytes: &[u8], number: u64, list: &mut Vec<Question>) {
    let bases = match reader::read(bytes, number) {
        Ok(read) => numbers_around(read.bases.into()),
        Err(_) => vec![0, 1, 2],
    };
    for base in bases {
        list.push(Question::FlowOfBase { number, base });
    }
}
