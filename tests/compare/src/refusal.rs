//! The refusals that all formats share.

#[derive(Clone, Copy, Debug, PartialEq, Eq)]
pub enum Refusal {
    CutShort = 1,
    OtherMark = 2,
    OtherVersion = 3,
    BadHeader = 4,
    TooManyEntries = 5,
    BadOffset = 6,
    NotThere = 7,
    TagTwice = 8,
    BadSizes = 9,
    TypeNotHandled = 10,
    ForbiddenValue = 11,
    NoSuchElement = 12,
    OutputTooSmall = 13,
    NotAscending = 14,
}

/// Judging's refusal; `entry` is the entry or read, from one, and 0 for what belongs to none.
#[derive(Clone, Copy, Debug, PartialEq, Eq)]
pub struct Refused {
    pub refusal: Refusal,
    pub entry: usize,
}

impl Refusal {
    pub fn at(self, entry: usize) -> Refused {
        Refused {
            refusal: self,
            entry,
        }
    }
}
