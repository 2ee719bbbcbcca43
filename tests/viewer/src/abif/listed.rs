//! What listing an ABIF file and showing its items must print, by the independent reader.

use crate::words::{cleaned, refused, shown, Line};
use compare::abif::reader::{element, lookup, open, text, Entry, Item, Tag, Type, Value};

const NUMBERS_A_LINE: usize = 10;
const BYTES_A_LINE: usize = 16;
const LETTERS_A_LINE: usize = 60;

/// The lines below the file's own.
pub fn list(bytes: &[u8]) -> Vec<Line> {
    let directory = match open(bytes) {
        Ok(directory) => directory,
        Err(refusal) => return vec![Line::Text(format!("directory: {}", refused(refusal)))],
    };
    let mut lines = vec![Line::Text("tag number type count size place".to_string())];
    let entries = directory.entries(bytes);
    lines.extend(entries.map(|entry| Line::Text(entry_line(bytes, &entry))));
    lines
}

fn entry_line(bytes: &[u8], entry: &Entry) -> String {
    let refusal = match lookup(bytes, entry.tag) {
        Ok(_) => String::new(),
        Err(refusal) => refused(refusal),
    };
    format!(
        "{} {} {} {} {} {} {} {refusal}",
        shown(&entry.tag.name.to_be_bytes()),
        entry.tag.number,
        entry.type_code,
        type_name(entry.type_code),
        entry.count,
        entry.data_size,
        place(entry.data_size.into(), entry.data_offset.into()),
    )
}

fn place(size: i64, offset: i64) -> String {
    if size <= 4 {
        "inline".to_string()
    } else {
        format!("at {offset}")
    }
}

/// The names of the published types.
pub fn type_name(code: i16) -> &'static str {
    match code {
        1 => "byte",
        2 => "char",
        3 => "word",
        4 => "short",
        5 => "long",
        6 => "rational",
        7 => "float",
        8 => "double",
        9 => "BCD",
        10 => "date",
        11 => "time",
        12 => "thumb",
        13 => "bool",
        14 => "point",
        15 => "rect",
        16 => "vPoint",
        17 => "vRect",
        18 => "pString",
        19 => "cString",
        20 => "tag",
        128 => "deltaComp",
        256 => "LZWComp",
        384 => "deltaLZW",
        1024.. => "user",
        _ => "unknown",
    }
}

/// The lines of an item below the file's own.
pub fn show(bytes: &[u8], tag: Tag) -> Vec<Line> {
    let item = match lookup(bytes, tag) {
        Ok(item) => item,
        Err(refusal) => return vec![Line::Text(format!("item: {}", refused(refusal)))],
    };
    let first = format!(
        "{} {} type {} {} count {} size {} {}",
        shown(&tag.name.to_be_bytes()),
        tag.number,
        item.type_code,
        type_name(item.type_code),
        item.count,
        item.length,
        place(item.length as i64, item.start as i64),
    );
    let mut lines = vec![Line::Text(first)];
    lines.extend(data_lines(bytes, tag, &item));
    lines
}

fn data_lines(bytes: &[u8], tag: Tag, item: &Item) -> Vec<Line> {
    let data = &bytes[item.start..item.start + item.length];
    match item.kind {
        Type::PString | Type::CString => vec![Line::Text(match text(bytes, tag) {
            Ok(part) => cleaned(&bytes[part]),
            Err(refusal) => format!("text: {}", refused(refusal)),
        })],
        Type::Raw if data.is_empty() => vec![Line::Text("no bytes".to_string())],
        Type::Raw => {
            let words: Vec<String> = data.iter().map(|byte| format!("{byte:02x}")).collect();
            numbered(&words, BYTES_A_LINE, " ")
        }
        _ if item.count == 0 => vec![Line::Text("no elements".to_string())],
        Type::Byte | Type::Char | Type::Word | Type::Short | Type::Long => {
            whole_lines(bytes, tag, item)
        }
        _ => (1..=item.count)
            .map(|index| element_line(bytes, tag, index))
            .collect(),
    }
}

// Words in lines of so many, each with the number of its first.
fn numbered(words: &[String], a_line: usize, between: &str) -> Vec<Line> {
    let lines = words.chunks(a_line).enumerate();
    lines
        .map(|(line, words)| {
            let first = line * a_line + 1;
            Line::Text(format!("{first}: {}", words.join(between)))
        })
        .collect()
}

fn whole_lines(bytes: &[u8], tag: Tag, item: &Item) -> Vec<Line> {
    let number = |index| match element(bytes, tag, index) {
        Ok(Value::Whole(number)) => number,
        other => panic!("{tag:?} {index}: {other:?}"),
    };
    let numbers: Vec<i64> = (1..=item.count).map(number).collect();
    let mut lines = Vec::new();
    if item.kind == Type::Char && numbers.iter().all(|number| (32..=126).contains(number)) {
        let letter = |&number: &i64| char::from(number as u8).to_string();
        let letters: Vec<String> = numbers.iter().map(letter).collect();
        lines.extend(numbered(&letters, LETTERS_A_LINE, ""));
    }
    let words: Vec<String> = numbers.iter().map(i64::to_string).collect();
    lines.extend(numbered(&words, NUMBERS_A_LINE, " "));
    lines
}

fn element_line(bytes: &[u8], tag: Tag, index: u64) -> Line {
    let text = match element(bytes, tag, index) {
        Err(refusal) => refused(refusal),
        Ok(Value::Single(bits)) => return Line::Single(format!("{index}: "), bits),
        Ok(Value::Real(bits)) => return Line::Real(format!("{index}: "), bits),
        Ok(Value::Whole(number)) => number.to_string(),
        Ok(Value::Date(year, month, day)) => format!("{year:04}-{month:02}-{day:02}"),
        Ok(Value::Time([hour, minute, second, hundredth])) => {
            format!("{hour:02}:{minute:02}:{second:02}.{hundredth:02}")
        }
        Ok(Value::Bool(value)) => value.to_string(),
        Ok(Value::Thumb(a, b, c, d)) => format!("{a} {b} {c} {d}"),
    };
    Line::Text(format!("{index}: {text}"))
}
