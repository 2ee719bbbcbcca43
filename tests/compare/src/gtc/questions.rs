//! Calls with their arguments, asked of the library and of the reader alike.

use super::answers::{Snp, TransformationAnswer, SNP_NUMBERS};
use super::draft::{listed_ids, Draft, TRANSFORMATIONS};
use super::generate::UNLISTED;
use super::library;
use super::reader::{self, SnpArrays};
use super::Gtc;
use crate::answers::{Found, Written};
use crate::arguments::{bulk_rooms_from, numbers_around, sample};
use crate::format::{self, Calls};
use crate::little_endian::u32_at;

#[derive(Clone, Copy, Debug)]
pub enum Question {
    Lookup(u16),
    Snp(u64),
    Snps { first: u64, room: usize },
    Transformation(u64),
}

#[derive(Clone, Debug, PartialEq)]
pub enum Answer {
    Found(Found),
    Snp(Snp),
    Snps(Written<u64>),
    /// With the bits of the twelve floats, which the library tells by their place; 0 where refused.
    Transformation(TransformationAnswer, [u32; 12]),
}

impl format::Answer for Answer {
    fn refusal(&self) -> u64 {
        match self {
            Answer::Found(found) => found.refusal,
            Answer::Snp(snp) => snp.refusal,
            Answer::Snps(written) => written.listed.refusal,
            Answer::Transformation(answer, _) => answer.refusal,
        }
    }

    fn is_untouched(&self) -> bool {
        match self {
            Answer::Snps(written) => written.is_untouched(),
            _ => true,
        }
    }
}

impl format::Question for Question {
    type Answer = Answer;

    fn ask_library(&self, bytes: &[u8]) -> Answer {
        match *self {
            Question::Lookup(id) => Answer::Found(library::lookup(bytes, id)),
            Question::Snp(number) => Answer::Snp(library::snp(bytes, number)),
            Question::Snps { first, room } => {
                let call = |out: &mut [u64]| library::snps(bytes, first, out);
                Answer::Snps(Written::by(room, call))
            }
            Question::Transformation(number) => {
                let answer = library::transformation(bytes, number);
                Answer::Transformation(answer, bits_at(bytes, &answer))
            }
        }
    }

    fn ask_reader(&self, bytes: &[u8]) -> Answer {
        match *self {
            Question::Lookup(id) => Answer::Found(reader::lookup(bytes, id).into()),
            Question::Snp(number) => Answer::Snp(reader::snp(bytes, number).into()),
            Question::Snps { first, room } => {
                let call = |out: &mut [u64]| reader::snps(bytes, first, out).into();
                Answer::Snps(Written::by(room, call))
            }
            Question::Transformation(number) => {
                let answer = reader::transformation(bytes, number);
                let bits = answer.map_or([0; 12], |placed| placed.bits);
                Answer::Transformation(answer.into(), bits)
            }
        }
    }
}

// The bits of the floats, where the answer says that the transformation's bytes stand.
fn bits_at(bytes: &[u8], answer: &TransformationAnswer) -> [u32; 12] {
    let mut bits = [0; 12];
    let place = answer.start as usize;
    let fields = bytes.get(place..).and_then(|rest| rest.get(4..52));
    if let (0, Some(fields)) = (answer.refusal, fields) {
        for (slot, field) in bits.iter_mut().zip(fields.chunks_exact(4)) {
            *slot = u32_at(field, 0);
        }
    }
    bits
}

impl Calls for Gtc {
    type Question = Question;

    // For all ids of the format and for others, and for every kind of number.
    fn questions(bytes: &[u8], draft: Option<&Draft>) -> Vec<Question> {
        let ids = ids(bytes, &draft.map_or(Vec::new(), Draft::ids));
        let mut list: Vec<Question> = ids.into_iter().map(Question::Lookup).collect();
        let snps = SnpArrays::of(bytes).map_or(2, |arrays| arrays.count());
        for number in numbers_around(snps as u64) {
            list.push(Question::Snp(number));
            for room in bulk_rooms_from(number, snps as u64, snps, SNP_NUMBERS) {
                let first = number;
                list.push(Question::Snps { first, room });
            }
        }
        let transformations = reader::lookup(bytes, TRANSFORMATIONS).map_or(2, |item| item.count);
        let numbers = numbers_around(transformations);
        list.extend(numbers.into_iter().map(Question::Transformation));
        list
    }
}

// All listed ids, a selection of the others in the file and in `more`, and ids that are in neither.
fn ids(bytes: &[u8], more: &[u16]) -> Vec<u16> {
    let mut ids = listed_ids();
    ids.extend(sample(&reader::ids(bytes)));
    ids.extend(sample(more));
    ids.extend(sample(&UNLISTED));
    ids.sort_unstable();
    ids.dedup();
    ids
}
