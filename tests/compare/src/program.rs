//! The lines that the program prints for its standard input, piece by piece: each is a write.

use crate::abif::reader::Entry;
use crate::judged::Judged;
use crate::refusal::Refused;
use crate::{abif, gtc, sff};

const MOST_BYTES: usize = 65_536;
const GTC: &str = "GTC";

pub fn lines(input: &[u8]) -> String {
    pieces(input).concat()
}

/// What the program hands to its output, write by write.
pub fn pieces(input: &[u8]) -> Vec<String> {
    if input.len() > MOST_BYTES {
        return vec!["too long\n".to_string()];
    }
    pieces_of_any_length(input)
}

/// The lines of a file that a program without the limit prints.
pub fn lines_of_any_length(input: &[u8]) -> String {
    pieces_of_any_length(input).concat()
}

fn pieces_of_any_length(input: &[u8]) -> Vec<String> {
    if input.starts_with(b"ABIF") {
        abif_pieces(input)
    } else if input.starts_with(b".sff") {
        first_line("SFF", input, sff::reader::judge(input))
    } else if input.starts_with(b"gtc") {
        first_line(GTC, input, gtc::reader::judge(input))
    } else {
        vec!["unknown\n".to_string()]
    }
}

fn put_number(pieces: &mut Vec<String>, word: &str, number: i128) {
    pieces.push(format!(" {word} "));
    put_signed(pieces, number);
}

// A negative number's sign is a piece by itself.
fn put_signed(pieces: &mut Vec<String>, number: i128) {
    if number < 0 {
        pieces.push("-".to_string());
    }
    pieces.push(number.unsigned_abs().to_string());
}

fn put_end(pieces: &mut Vec<String>) {
    pieces.push("\n".to_string());
}

fn first_line(format: &str, input: &[u8], judged: Result<Judged, Refused>) -> Vec<String> {
    let mut pieces = vec![format.to_string()];
    match judged {
        Ok(judged) => put_whole(&mut pieces, format, input.len(), judged),
        Err(refused) => {
            put_number(&mut pieces, "refused", refused.refusal as i128);
            put_number(&mut pieces, "at", refused.entry as i128);
        }
    }
    put_end(&mut pieces);
    pieces
}

// Of the three formats GTC alone has entries that are not judged.
fn put_whole(pieces: &mut Vec<String>, format: &str, length: usize, judged: Judged) {
    put_number(pieces, "whole", judged.extent as i128);
    put_number(pieces, "of", length as i128);
    if format == GTC {
        put_number(pieces, "unjudged", judged.unjudged as i128);
    }
    put_number(pieces, "tail", judged.tail as i128);
}

// Only a whole file has lines for its entries.
fn abif_pieces(input: &[u8]) -> Vec<String> {
    let judged = abif::reader::judge(input);
    let mut pieces = first_line("ABIF", input, judged);
    if let (Ok(_), Ok(directory)) = (judged, abif::reader::open(input)) {
        for entry in directory.entries(input) {
            put_entry(&mut pieces, &entry);
        }
    }
    pieces
}

fn put_entry(pieces: &mut Vec<String>, entry: &Entry) {
    let shown = |byte: u8| {
        if (32..=126).contains(&byte) {
            byte.into()
        } else {
            '.'
        }
    };
    pieces.push(entry.tag.name.to_be_bytes().map(shown).iter().collect());
    pieces.push(" ".to_string());
    put_signed(pieces, entry.tag.number.into());
    put_number(pieces, "type", entry.type_code.into());
    put_number(pieces, "count", entry.count.into());
    put_number(pieces, "size", entry.data_size.into());
    if entry.data_size <= 4 {
        pieces.push(" inline\n".to_string());
    } else {
        put_number(pieces, "at", entry.data_offset.into());
        put_end(pieces);
    }
}
