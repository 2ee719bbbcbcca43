//! The called letters of a run, and where they are shown.

use super::contents::{is_missing, numbers, Channel, Numbers};
use super::range::Range;

/// The place of a letter whose place is below nought.
const NOWHERE: usize = usize::MAX - 1;

/// A base that is shown over its trace; bases count from one.
#[derive(Debug, PartialEq, Eq)]
pub struct Base {
    pub base: usize,
    pub row: usize,
    pub place: usize,
    pub letter: i64,
    pub quality: Option<i64>,
}

/// The letters with a trace under them, and how many have none.
#[derive(Default)]
pub struct Placed {
    pub shown: Vec<Base>,
    pub hidden: usize,
}

/// The called letters, their places and their qualities.
pub struct Called {
    number: i32,
    letters: Numbers,
    places: Numbers,
    pub qualities: Numbers,
}

impl Called {
    pub fn of(bytes: &[u8]) -> Called {
        let only_second = is_missing(bytes, b"PBAS", 1) && !is_missing(bytes, b"PBAS", 2);
        let number = if only_second { 2 } else { 1 };
        Called {
            number,
            letters: numbers(bytes, b"PBAS", number),
            places: numbers(bytes, b"PLOC", number),
            qualities: numbers(bytes, b"PCON", number),
        }
    }

    /// The three parts, by their names.
    pub fn named(&self) -> [(String, &Numbers); 3] {
        let name = |name: &str| format!("{name} {}", self.number);
        [
            (name("PBAS"), &self.letters),
            (name("PLOC"), &self.places),
            (name("PCON"), &self.qualities),
        ]
    }

    /// The letters over channels whose bases are known; those of rows that are left out are not among
    /// them.
    pub fn bases(&self, channels: &[Channel], range: &Range) -> Placed {
        let mut placed = Placed::default();
        let (Ok(letters), Ok(places)) = (&self.letters, &self.places) else {
            return placed;
        };
        if letters.len() != places.len() {
            return placed;
        }
        let qualities = self.qualities.as_ref().ok();
        let qualities = qualities.filter(|qualities| qualities.len() == letters.len());
        for (index, (&letter, &place)) in letters.iter().zip(places).enumerate() {
            let length = traced_length(channels, letter);
            let place = usize::try_from(place).unwrap_or(NOWHERE);
            if place >= length {
                placed.hidden += usize::from(!range.is_left_out(place));
                continue;
            }
            let row = row_of(place, length, range.points);
            if row >= range.rows() {
                continue;
            }
            placed.shown.push(Base {
                base: index + 1,
                row,
                place,
                letter,
                quality: qualities.map(|qualities| qualities[index]),
            });
        }
        placed
    }
}

// How far all traces go that the letter stands for.
fn traced_length(channels: &[Channel], letter: i64) -> usize {
    let lengths = meant_bases(letter).chars().map(|base| {
        let mut channels = channels.iter();
        let channel = channels.find(|channel| channel.base == Some(base));
        channel.map_or(0, Channel::length)
    });
    lengths.min().unwrap_or(0)
}

// A trace that ends with the point that two rows share has its line in the first of them.
fn row_of(place: usize, length: usize, points: usize) -> usize {
    let row = place / points;
    if row > 0 && place % points == 0 && length == place + 1 {
        row - 1
    } else {
        row
    }
}

// What a letter stands for, by the codes of the IUPAC.
fn meant_bases(letter: i64) -> &'static str {
    let letter = u8::try_from(letter).unwrap_or(b'N');
    match letter.to_ascii_uppercase() {
        b'A' => "A",
        b'C' => "C",
        b'G' => "G",
        b'T' => "T",
        b'R' => "AG",
        b'Y' => "CT",
        b'S' => "CG",
        b'W' => "AT",
        b'K' => "GT",
        b'M' => "AC",
        b'B' => "CGT",
        b'D' => "AGT",
        b'H' => "ACT",
        b'V' => "ACG",
        _ => "ACGT",
    }
}
