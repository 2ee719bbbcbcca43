//! The answers of the SFF functions, field by field, and the same answers made from the reader's.

use super::reader::{self, FIXED_HEADER};
use crate::refusal::Refusal;

/// How many numbers the bulk call writes for a read.
pub const READ_NUMBERS: usize = 17;

#[repr(C)]
#[derive(Clone, Copy, Debug, Default, PartialEq, Eq)]
pub struct Header {
    pub refusal: u64,
    pub index_offset: u64,
    pub index_length: u64,
    pub reads: u64,
    pub header_length: u64,
    pub key_length: u64,
    pub flows: u64,
    pub flow_letters_start: u64,
    pub key_start: u64,
}

#[repr(C)]
#[derive(Clone, Copy, Debug, Default, PartialEq, Eq)]
pub struct Read {
    pub refusal: u64,
    pub start: u64,
    pub name_start: u64,
    pub name_length: u64,
    pub bases: u64,
    pub quality_left: u64,
    pub quality_right: u64,
    pub adapter_left: u64,
    pub adapter_right: u64,
    pub flows_start: u64,
    pub steps_start: u64,
    pub letters_start: u64,
    pub qualities_start: u64,
    pub first: u64,
    pub last: u64,
    pub insert_start: u64,
    pub insert_length: u64,
}

#[repr(C)]
#[derive(Clone, Copy, Debug, Default, PartialEq, Eq)]
pub struct Flow {
    pub refusal: u64,
    pub flow: u64,
}

/// How far the writing of a file has come.
#[repr(C)]
#[derive(Clone, Copy, Debug, Default, PartialEq, Eq)]
pub struct State {
    pub refusal: u64,
    pub reads: u64,
    pub written: u64,
    pub flows: u64,
    pub at: u64,
}

impl State {
    /// The answer to a call that was given this state; refused, it differs in the refusal alone.
    pub fn after(self, answer: Result<State, Refusal>) -> State {
        answer.unwrap_or_else(|refusal| State {
            refusal: refusal as u64,
            ..self
        })
    }
}

impl From<Result<reader::Header, Refusal>> for Header {
    fn from(answer: Result<reader::Header, Refusal>) -> Header {
        match answer {
            Ok(header) => Header {
                refusal: 0,
                index_offset: header.index_offset,
                index_length: header.index_length.into(),
                reads: header.reads.into(),
                header_length: header.length as u64,
                key_length: header.key_length.into(),
                flows: header.flows.into(),
                flow_letters_start: FIXED_HEADER as u64,
                key_start: FIXED_HEADER as u64 + u64::from(header.flows),
            },
            Err(refusal) => Header {
                refusal: refusal as u64,
                ..Header::default()
            },
        }
    }
}

impl From<Result<reader::Read, Refusal>> for Read {
    fn from(answer: Result<reader::Read, Refusal>) -> Read {
        match answer {
            Ok(read) => Read::from(read),
            Err(refusal) => Read::refused(refusal as u64),
        }
    }
}

impl From<reader::Read> for Read {
    fn from(read: reader::Read) -> Read {
        let [quality_left, quality_right] = read.quality_clip.map(u64::from);
        let [adapter_left, adapter_right] = read.adapter_clip.map(u64::from);
        Read {
            refusal: 0,
            start: read.start as u64,
            name_start: read.name.start as u64,
            name_length: read.name.len() as u64,
            bases: read.bases.into(),
            quality_left,
            quality_right,
            adapter_left,
            adapter_right,
            flows_start: read.flows_start as u64,
            steps_start: read.steps_start as u64,
            letters_start: read.letters_start as u64,
            qualities_start: read.qualities_start as u64,
            first: read.first.into(),
            last: read.last.into(),
            insert_start: read.insert.start as u64,
            insert_length: read.insert.len() as u64,
        }
    }
}

impl Read {
    pub fn refused(refusal: u64) -> Read {
        Read {
            refusal,
            ..Read::default()
        }
    }

    /// The fields in their order, as the bulk call writes them.
    pub fn numbers(&self) -> [u64; READ_NUMBERS] {
        [
            self.refusal,
            self.start,
            self.name_start,
            self.name_length,
            self.bases,
            self.quality_left,
            self.quality_right,
            self.adapter_left,
            self.adapter_right,
            self.flows_start,
            self.steps_start,
            self.letters_start,
            self.qualities_start,
            self.first,
            self.last,
            self.insert_start,
            self.insert_length,
        ]
    }
}

impl From<Result<u64, Refusal>> for Flow {
    fn from(answer: Result<u64, Refusal>) -> Flow {
        match answer {
            Ok(flow) => Flow { refusal: 0, flow },
            Err(refusal) => Flow {
                refusal: refusal as u64,
                flow: 0,
            },
        }
    }
}
