//! What the independent readers say of a file, and how the viewer must say it.

use crate::sentences::explanation;
use crate::words::cleaned;
use compare::judged::Judged;
use compare::program::lines_of_any_length;
use compare::refusal::Refused;
use compare::{abif, gtc, sff};

#[derive(Clone, Copy, Debug, PartialEq, Eq)]
pub enum Format {
    Abif,
    Sff,
    Gtc,
    Unknown,
}

impl Format {
    pub fn of(bytes: &[u8]) -> Format {
        if bytes.starts_with(b"ABIF") {
            Format::Abif
        } else if bytes.starts_with(b".sff") {
            Format::Sff
        } else if bytes.starts_with(b"gtc") {
            Format::Gtc
        } else {
            Format::Unknown
        }
    }

    pub fn name(self) -> &'static str {
        match self {
            Format::Abif => "ABIF",
            Format::Sff => "SFF",
            Format::Gtc => "GTC",
            Format::Unknown => "unknown",
        }
    }
}

// What judging says; of a file of no format nothing.
fn judged(bytes: &[u8]) -> Option<Result<Judged, Refused>> {
    match Format::of(bytes) {
        Format::Abif => Some(abif::reader::judge(bytes)),
        Format::Sff => Some(sff::reader::judge(bytes)),
        Format::Gtc => Some(gtc::reader::judge(bytes)),
        Format::Unknown => None,
    }
}

/// Judging's refusal; of a file of no format there is none.
pub fn refused(bytes: &[u8]) -> Option<Refused> {
    judged(bytes)?.err()
}

/// What judging finds, if the file is whole.
pub fn whole(bytes: &[u8]) -> Option<Judged> {
    judged(bytes)?.ok()
}

pub fn is_whole(bytes: &[u8]) -> bool {
    whole(bytes).is_some()
}

// The line of a file with this name, without its newline.
fn line(name: &[u8], bytes: &[u8]) -> Vec<u8> {
    let lines = lines_of_any_length(bytes);
    let first = lines.lines().next().unwrap_or("");
    [&shown_name(name), &b": "[..], first.as_bytes()].concat()
}

/// The line, and below it what it means, where there is something to say; each with its newline.
pub fn lines(name: &[u8], bytes: &[u8]) -> Vec<u8> {
    let mut lines = line(name, bytes);
    lines.push(b'\n');
    if let Some(told) = explanation(bytes) {
        let headline = told
            .headline
            .map_or(String::new(), |headline| format!("{headline}: "));
        lines.extend(format!("  {headline}{}\n", told.sentences).into_bytes());
    }
    lines
}

/// A file's name as it is printed.
pub fn shown_name(name: &[u8]) -> Vec<u8> {
    cleaned(name).into_bytes()
}
