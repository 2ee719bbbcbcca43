//! The answers of C functions that all formats share, and the same answers made from the readers'.

use crate::judged::Judged;
use crate::refusal::{Refusal, Refused};

const UNTOUCHED: u32 = 0x5A5A_A5A5;
const GUARD: usize = 4;

/// What a lent output holds before a call, another value at every place.
pub trait Untouched: PartialEq {
    fn untouched(place: usize) -> Self;
}

impl Untouched for u32 {
    fn untouched(place: usize) -> u32 {
        UNTOUCHED ^ place as u32
    }
}

impl Untouched for u64 {
    fn untouched(place: usize) -> u64 {
        u32::untouched(place).into()
    }
}

impl Untouched for i64 {
    fn untouched(place: usize) -> i64 {
        u32::untouched(place).into()
    }
}

#[repr(C)]
#[derive(Clone, Copy, Debug, Default, PartialEq, Eq)]
pub struct Verdict {
    pub refusal: u64,
    pub entry: u64,
    pub extent: u64,
    pub unjudged: u64,
    pub tail: u64,
}

/// An item: its type (for GTC its id), its count, and where its data stand.
#[repr(C)]
#[derive(Clone, Copy, Debug, Default, PartialEq, Eq)]
pub struct Found {
    pub refusal: u64,
    pub type_code: u64,
    pub count: u64,
    pub start: u64,
    pub length: u64,
}

#[repr(C)]
#[derive(Clone, Copy, Debug, Default, PartialEq, Eq)]
pub struct Listed {
    pub refusal: u64,
    pub count: u64,
}

/// The length of a file that was written.
#[repr(C)]
#[derive(Clone, Copy, Debug, Default, PartialEq, Eq)]
pub struct Finished {
    pub refusal: u64,
    pub length: u64,
}

impl Verdict {
    pub fn whole(extent: usize, tail: usize) -> Verdict {
        Verdict {
            extent: extent as u64,
            tail: tail as u64,
            ..Verdict::default()
        }
    }

    pub fn refused(refusal: u64, entry: u64) -> Verdict {
        Verdict {
            refusal,
            entry,
            ..Verdict::default()
        }
    }
}

impl Found {
    pub fn refused(refusal: u64) -> Found {
        Found {
            refusal,
            ..Found::default()
        }
    }
}

impl From<Result<Judged, Refused>> for Verdict {
    fn from(answer: Result<Judged, Refused>) -> Verdict {
        match answer {
            Ok(judged) => Verdict {
                unjudged: judged.unjudged as u64,
                ..Verdict::whole(judged.extent, judged.tail)
            },
            Err(refused) => Verdict::refused(refused.refusal as u64, refused.entry as u64),
        }
    }
}

impl From<Result<usize, Refusal>> for Listed {
    fn from(answer: Result<usize, Refusal>) -> Listed {
        match answer {
            Ok(count) => Listed {
                refusal: 0,
                count: count as u64,
            },
            Err(refusal) => Listed {
                refusal: refusal as u64,
                count: 0,
            },
        }
    }
}

impl From<Result<u64, Refusal>> for Finished {
    fn from(answer: Result<u64, Refusal>) -> Finished {
        match answer {
            Ok(length) => Finished { refusal: 0, length },
            Err(refusal) => Finished {
                refusal: refusal as u64,
                length: 0,
            },
        }
    }
}

/// A call's answer with all that the lent output then holds, a guard behind its room included.
#[derive(Clone, Debug, PartialEq)]
pub struct Written<T> {
    pub listed: Listed,
    pub out: Vec<T>,
}

impl<T: Untouched> Written<T> {
    /// Makes the call with an output of this room.
    pub fn by(room: usize, call: impl FnOnce(&mut [T]) -> Listed) -> Written<T> {
        let mut out: Vec<T> = (0..room + GUARD).map(T::untouched).collect();
        let listed = call(&mut out[..room]);
        Written { listed, out }
    }

    /// A call with an output of this room that is refused so.
    pub fn refused(refusal: u64, room: usize) -> Written<T> {
        Written::by(room, |_| Listed { refusal, count: 0 })
    }

    /// A call with an output of this room that writes this at its front, so many items.
    pub fn holding(room: usize, front: &[T], count: usize) -> Written<T>
    where
        T: Copy,
    {
        Written::by(room, |out| {
            out[..front.len()].copy_from_slice(front);
            Listed {
                refusal: 0,
                count: count as u64,
            }
        })
    }

    /// Whether the output holds what it held before the call.
    pub fn is_untouched(&self) -> bool {
        let mut places = self.out.iter().enumerate();
        places.all(|(place, now)| *now == T::untouched(place))
    }
}
