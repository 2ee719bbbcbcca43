//! Letters and channels of ABIF files.

use super::{counted, mark, word, Asked, Exported, Kind, Record};
use crate::abif::contents::{is_missing, numbers, text_of, Contents};
use crate::words::{cleaned, refused};
use compare::abif::generate::{plain_file, Content, Order};
use compare::abif::reader::Tag;
use std::os::unix::ffi::OsStrExt;
use std::path::Path;

const LONG: i16 = 5;
const P_STRING: i16 = 18;
const C_STRING: i16 = 19;

type Items = Vec<(Tag, Content)>;

pub fn exported(file: &Path, bytes: &[u8], asked: Asked) -> Exported {
    match asked.kind {
        Kind::Csv => channels(bytes, asked.raw),
        kind => letters(file, bytes, kind),
    }
}

fn letters(file: &Path, bytes: &[u8], kind: Kind) -> Exported {
    let only_second = is_missing(bytes, b"PBAS", 1) && !is_missing(bytes, b"PBAS", 2);
    let number = if only_second { 2 } else { 1 };
    let letters = match numbers(bytes, b"PBAS", number) {
        Ok(letters) => letters,
        Err(refusal) => return Exported::refused(&format!("PBAS {number}"), refusal),
    };
    let qualities = match (kind, numbers(bytes, b"PCON", number)) {
        (Kind::Fasta, _) => Vec::new(),
        (_, Ok(qualities)) if qualities.len() == letters.len() => qualities,
        (_, Ok(qualities)) => {
            return Exported::nothing(
                1,
                format!(
                    "PBAS {number} has {} letters, but PCON {number} has {} qualities",
                    letters.len(),
                    qualities.len()
                ),
            )
        }
        (_, Err(refusal)) => return Exported::refused(&format!("PCON {number}"), refusal),
    };
    let sample = text_of(bytes, b"SMPL", 1).or_else(|| text_of(bytes, b"SpNm", 1));
    let sample = sample.filter(|sample| !sample.is_empty());
    let sample = sample.map_or(String::new(), |it| format!(", sample {}", cleaned(it)));
    let record = Record {
        id: word(file.file_name().unwrap_or_default().as_bytes()),
        words: format!(
            "PBAS {number}, {}{sample}",
            counted(letters.len(), "letter")
        ),
        letters,
        qualities,
    };
    match record.text(kind, &mark(bytes, ' '), 1) {
        Ok(text) => Exported {
            text: Some(text),
            ..Exported::default()
        },
        Err(message) => Exported::nothing(1, message),
    }
}

fn channels(bytes: &[u8], raw: bool) -> Exported {
    let channels = Contents::of(bytes, raw, None).channels;
    if let (Some(refusal), true) = (
        channels[0].values.as_ref().err(),
        channels.iter().all(|channel| channel.values.is_err()),
    ) {
        let message = format!("{}: {}", channels[0].part, refused(*refusal));
        return Exported::nothing(1, message);
    }
    let mut text = "point".to_string();
    for channel in &channels {
        let base = channel
            .base
            .map_or(String::new(), |base| format!(" {base}"));
        let refusal = channel.values.as_ref().err();
        let refusal = refusal.map_or(String::new(), |&it| format!(" refused {}", it as u64));
        text.push_str(&format!(",{}{base}{refusal}", channel.part));
    }
    text.push_str(&format!("{}\n", mark(bytes, ',')));
    let end = if mark(bytes, ',').is_empty() {
        ""
    } else {
        ",refused"
    };
    let longest = channels.iter().map(|channel| channel.length()).max();
    for point in 0..longest.unwrap_or(0) {
        let values = channels.iter().map(|channel| {
            let value = channel.values.as_ref().ok().and_then(|it| it.get(point));
            value.map_or(String::new(), i64::to_string)
        });
        let values: Vec<String> = values.collect();
        text.push_str(&format!("{point},{}{end}\n", values.join(",")));
    }
    Exported {
        text: Some(text),
        messages: Vec::new(),
        status: i32::from(channels.iter().any(|channel| channel.values.is_err())),
    }
}

/// Runs whose letters can be written, the first of them small, and those where one thing cannot.
pub fn runs() -> Vec<Vec<u8>> {
    let mut runs = sound_runs();
    let others = unsound_letters().into_iter();
    runs.extend(others.map(|items| with(items, &[], 0, Items::new())));
    runs
}

fn sound_runs() -> Vec<Vec<u8>> {
    let four = [9, 10, 11, 12];
    let six = [9, 10, 11, 12, 205, 206];
    let raw = [1, 2, 3, 4, 105];
    let named = |code, name| text(b"SMPL", code, name);
    let named_so = |code, name| text(b"SpNm", code, name);
    vec![
        with(called(1, 7), &four, 5, named(P_STRING, b"tube 7\x1B")),
        with(
            called(1, 10_000),
            &four,
            9001,
            named_so(C_STRING, b"tube \xC3\xA9"),
        ),
        with(called(2, 60), &six, 4096, named(P_STRING, b"")),
        with(called(1, 1), &raw, 4097, named_so(P_STRING, b"x")),
        with(
            called(1, 120),
            &[10, 216],
            3,
            named(C_STRING, b"two\0three"),
        ),
    ]
}

// A letter, a quality or their numbers cannot be, or there are none.
fn unsound_letters() -> [Items; 6] {
    let mut unsure = called(1, 9000);
    unsure[0].1.data[4097] = b'?';
    let mut high = called(1, 9000);
    high[1].1.data[8191] = 94;
    let mut below = called(1, 61);
    below[1].1.data[60] = 0xFF;
    let mut fewer = called(1, 60);
    fewer[1] = (Tag::new(b"PCON", 1), Content::listed(2, vec![30; 59]));
    let wide = [65, 84, 321].into_iter().flat_map(i32::to_be_bytes);
    let wide = Content::listed(LONG, wide.collect());
    let wide = vec![(Tag::new(b"PBAS", 1), wide)];
    [unsure, high, below, fewer, wide, Items::new()]
}

fn called(number: i32, count: usize) -> Items {
    let letters = b"GATCNry-*".iter().copied().cycle().take(count).collect();
    let qualities = (0..94).cycle().take(count).collect();
    vec![
        (Tag::new(b"PBAS", number), Content::listed(2, letters)),
        (Tag::new(b"PCON", number), Content::listed(2, qualities)),
    ]
}

fn text(name: &[u8; 4], code: i16, text: &[u8]) -> Items {
    let data = match code {
        P_STRING => [&[text.len() as u8], text].concat(),
        _ => [text, &[0]].concat(),
    };
    vec![(Tag::new(name, 1), Content::listed(code, data))]
}

// With these channels, each a point shorter than the one before it.
fn with(called: Items, channels: &[i32], longest: u16, more: Items) -> Vec<u8> {
    let mut items = more;
    items.extend(called);
    items.push((Tag::new(b"FWO_", 1), Content::listed(2, b"GATC".to_vec())));
    for (index, &number) in (0..).zip(channels) {
        let values = 0..longest.saturating_sub(index);
        let data = values.flat_map(|value| (value as i16 - 100).to_be_bytes());
        items.push((
            Tag::new(b"DATA", number),
            Content::listed(4, data.collect()),
        ));
    }
    plain_file(&items, Order::DirectoryFirst).bytes()
}
