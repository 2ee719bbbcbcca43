//! A row of a printed table of tags.

use crate::abif::reader::{Entry, Tag};

const FIRST_USER_CODE: i16 = 1024;

/// The numbers that a row stands for.
#[derive(Clone, Copy, Debug, PartialEq, Eq)]
pub enum Numbers {
    Only(i32),
    /// Printed as 1-N.
    FromOne,
}

/// A row's type, by its printed name.
#[derive(Clone, Copy, Debug, PartialEq, Eq)]
pub enum RowType {
    Byte,
    Char,
    CharArray,
    /// Printed as char[4].
    FourChars,
    Short,
    ShortArray,
    Long,
    LongArray,
    Float,
    Date,
    Time,
    PString,
    CString,
    User,
}

#[derive(Clone, Copy, Debug, PartialEq, Eq)]
pub struct Row {
    pub name: &'static [u8; 4],
    pub numbers: Numbers,
    pub row_type: RowType,
    pub is_optional: bool,
}

/// A row without "(optional)".
pub const fn required(name: &'static [u8; 4], numbers: Numbers, row_type: RowType) -> Row {
    Row {
        name,
        numbers,
        row_type,
        is_optional: false,
    }
}

/// A row whose description ends in "(optional)".
pub const fn optional(name: &'static [u8; 4], numbers: Numbers, row_type: RowType) -> Row {
    Row {
        name,
        numbers,
        row_type,
        is_optional: true,
    }
}

impl Row {
    pub fn has_tag(&self, tag: Tag) -> bool {
        self.first_tag().name == tag.name
            && match self.numbers {
                Numbers::Only(number) => tag.number == number,
                Numbers::FromOne => tag.number >= 1,
            }
    }

    pub fn required_tag(&self) -> Option<Tag> {
        (!self.is_optional).then(|| self.first_tag())
    }

    /// The row's tag, and of a row for all numbers that of number 1.
    pub fn first_tag(&self) -> Tag {
        match self.numbers {
            Numbers::Only(number) => Tag::new(self.name, number),
            Numbers::FromOne => Tag::new(self.name, 1),
        }
    }
}

impl RowType {
    pub fn admits(self, entry: &Entry) -> bool {
        let code = match self.code() {
            Some(code) => entry.type_code == code,
            None => entry.type_code >= FIRST_USER_CODE,
        };
        code && self.count().is_none_or(|count| entry.count == count)
    }

    /// The type code, which a user type leaves open.
    pub fn code(self) -> Option<i16> {
        match self {
            RowType::Byte => Some(1),
            RowType::Char | RowType::CharArray | RowType::FourChars => Some(2),
            RowType::Short | RowType::ShortArray => Some(4),
            RowType::Long | RowType::LongArray => Some(5),
            RowType::Float => Some(7),
            RowType::Date => Some(10),
            RowType::Time => Some(11),
            RowType::PString => Some(18),
            RowType::CString => Some(19),
            RowType::User => None,
        }
    }

    /// The element count, which texts, arrays and user types leave open.
    pub fn count(self) -> Option<i32> {
        match self {
            RowType::Byte
            | RowType::Char
            | RowType::Short
            | RowType::Long
            | RowType::Float
            | RowType::Date
            | RowType::Time => Some(1),
            RowType::FourChars => Some(4),
            RowType::CharArray
            | RowType::ShortArray
            | RowType::LongArray
            | RowType::PString
            | RowType::CString
            | RowType::User => None,
        }
    }
}
