//! The calls that there are for a file's bytes alone and for an opened file.

use super::answers::{Element, Part};
use super::library;
use super::questions::Answer;
use super::reader::{self, Carried, Entry, Tag};
use crate::answers::{Found, Written};

#[derive(Clone, Copy, Debug)]
pub enum Call {
    Lookup(Tag),
    Element { tag: Tag, index: u64 },
    Text(Tag),
    List { room: usize },
}

impl Call {
    pub fn ask_library(self, bytes: &[u8]) -> Answer {
        match self {
            Call::Lookup(tag) => Answer::Found(library::lookup(bytes, tag)),
            Call::Element { tag, index } => Answer::Element(library::element(bytes, tag, index)),
            Call::Text(tag) => Answer::Part(library::text(bytes, tag)),
            Call::List { room } => {
                let call = |out: &mut [Entry]| library::list(bytes, out);
                Answer::Entries(Written::by(room, call))
            }
        }
    }

    pub fn ask_reader(self, bytes: &[u8]) -> Answer {
        match self {
            Call::Lookup(tag) => Answer::Found(reader::lookup(bytes, tag).into()),
            Call::Element { tag, index } => {
                Answer::Element(reader::element(bytes, tag, index).into())
            }
            Call::Text(tag) => Answer::Part(reader::text(bytes, tag).into()),
            Call::List { room } => {
                let call = |out: &mut [Entry]| reader::list(bytes, out).into();
                Answer::Entries(Written::by(room, call))
            }
        }
    }

    pub fn ask_library_opened(self, bytes: &[u8], carried: Carried) -> Answer {
        match self {
            Call::Lookup(tag) => Answer::Found(library::lookup_opened(bytes, carried, tag)),
            Call::Element { tag, index } => {
                Answer::Element(library::element_opened(bytes, carried, tag, index))
            }
            Call::Text(tag) => Answer::Part(library::text_opened(bytes, carried, tag)),
            Call::List { room } => {
                let call = |out: &mut [Entry]| library::list_opened(bytes, carried, out);
                Answer::Entries(Written::by(room, call))
            }
        }
    }

    pub fn ask_reader_opened(self, bytes: &[u8], carried: Carried) -> Answer {
        match self {
            Call::Lookup(tag) => Answer::Found(reader::lookup_opened(bytes, carried, tag).into()),
            Call::Element { tag, index } => {
                Answer::Element(reader::element_opened(bytes, carried, tag, index).into())
            }
            Call::Text(tag) => Answer::Part(reader::text_opened(bytes, carried, tag).into()),
            Call::List { room } => {
                let call = |out: &mut [Entry]| reader::list_opened(bytes, carried, out).into();
                Answer::Entries(Written::by(room, call))
            }
        }
    }

    /// The answer of this call where it is refused so.
    pub fn refused(self, refusal: u64) -> Answer {
        match self {
            Call::Lookup(_) => Answer::Found(Found::refused(refusal)),
            Call::Element { .. } => Answer::Element(Element {
                refusal,
                ..Element::default()
            }),
            Call::Text(_) => Answer::Part(Part {
                refusal,
                ..Part::default()
            }),
            Call::List { room } => Answer::Entries(Written::refused(refusal, room)),
        }
    }
}
