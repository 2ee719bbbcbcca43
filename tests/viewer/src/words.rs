//! What a line of the viewer's lists must say, whatever the spaces between its words.

use crate::sentences;
use compare::refusal::Refusal;

pub enum Line {
    Text(String),
    /// Words, and behind them a 32-bit float with these bits.
    Single(String, u32),
    /// The same with 64 bits.
    Real(String, u64),
}

impl Line {
    pub fn fits(&self, printed: &str) -> bool {
        let printed = collapsed(printed);
        let number = |words: &str| {
            let rest = printed.strip_prefix(&collapsed(words))?;
            Some(rest.trim().to_string())
        };
        match self {
            Line::Text(text) => printed == collapsed(text),
            Line::Single(words, bits) => {
                let value = number(words).and_then(|text| text.parse::<f32>().ok());
                let expected = f32::from_bits(*bits);
                value.is_some_and(|value| {
                    value.to_bits() == *bits || (value.is_nan() && expected.is_nan())
                })
            }
            Line::Real(words, bits) => {
                let value = number(words).and_then(|text| text.parse::<f64>().ok());
                let expected = f64::from_bits(*bits);
                value.is_some_and(|value| {
                    value.to_bits() == *bits || (value.is_nan() && expected.is_nan())
                })
            }
        }
    }

    pub fn text(&self) -> String {
        match self {
            Line::Text(text) => text.clone(),
            Line::Single(words, bits) => format!("{words} {}", f32::from_bits(*bits)),
            Line::Real(words, bits) => format!("{words} {}", f64::from_bits(*bits)),
        }
    }
}

/// All lines as they are expected, or the first that is not.
pub fn fault(expected: &[Line], printed: &[&str]) -> Option<String> {
    if expected.len() != printed.len() {
        return Some(format!("{} lines for {}", printed.len(), expected.len()));
    }
    let wrong = expected
        .iter()
        .zip(printed)
        .find(|(line, printed)| !line.fits(printed));
    wrong.map(|(line, printed)| format!("{printed:?} for {:?}", line.text()))
}

/// A refusal as it is told.
pub fn refused(refusal: Refusal) -> String {
    let number = refusal as u64;
    format!("{} (refused {number})", sentences::words(number))
}

/// A tag's name as it is shown: bytes outside 32 to 126 as a full stop.
pub fn shown(bytes: &[u8]) -> String {
    let letter = |&byte: &u8| match byte {
        32..=126 => char::from(byte),
        _ => '.',
    };
    bytes.iter().map(letter).collect()
}

/// Flow letters and key letters as they are shown: a blank is a full stop too.
pub fn shown_letters(bytes: &[u8]) -> String {
    shown(bytes).replace(' ', ".")
}

/// A text from outside as it is shown: each character that is not shown, and each byte that belongs to no character,
/// as one mark.
pub fn cleaned(mut bytes: &[u8]) -> String {
    let mut text = String::new();
    while !bytes.is_empty() {
        let (character, length) = first_character(bytes).unwrap_or(('\u{FFFD}', 1));
        text.push(if is_shown(character) {
            character
        } else {
            '\u{FFFD}'
        });
        bytes = &bytes[length..];
    }
    text
}

fn first_character(bytes: &[u8]) -> Option<(char, usize)> {
    let lengths = 1..=bytes.len().min(4);
    let mut characters = lengths.filter_map(|length| {
        let text = std::str::from_utf8(&bytes[..length]).ok()?;
        Some((text.chars().next()?, length))
    });
    characters.next()
}

/// Whether a character may reach a terminal.
pub fn is_shown(character: char) -> bool {
    let code = u32::from(character);
    let is_hidden = matches!(code,
        0..=0x1F | 0x7F..=0x9F | 0x61C | 0x200B..=0x200F | 0x2028..=0x202E | 0x2060..=0x2069
        | 0xFEFF | 0xFFF9..=0xFFFB | 0xFDD0..=0xFDEF);
    !is_hidden && code & 0xFFFE != 0xFFFE
}

fn collapsed(text: &str) -> String {
    text.split_whitespace().collect::<Vec<&str>>().join(" ")
}
