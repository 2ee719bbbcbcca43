//! What listing an SFF file must print, by the independent reader.

use crate::words::{cleaned, refused, shown_letters, Line};
use compare::refusal::Refusal;
use compare::sff::reader::{every_read, header, Header, Read};

const FIXED_LENGTH: usize = 31;

/// The lines below the file's own: the reads as far as they are there.
pub fn list(bytes: &[u8]) -> Vec<Line> {
    let header = match header(bytes) {
        Ok(header) => header,
        Err(refusal) => return vec![Line::Text(format!("header: {}", refused(refusal)))],
    };
    let mut lines = header_lines(bytes, &header);
    let mut k = 0;
    let walked = every_read(bytes, |read| {
        k += 1;
        lines.push(read_line(bytes, k, read));
    });
    if let Err(refusal) = walked {
        lines.push(read_line(bytes, k + 1, Err(refusal)));
    }
    lines
}

fn header_lines(bytes: &[u8], header: &Header) -> Vec<Line> {
    let key_start = FIXED_LENGTH + usize::from(header.flows);
    let key = &bytes[key_start..key_start + usize::from(header.key_length)];
    let index = match header.index_length {
        0 => "no index".to_string(),
        length => format!("index of {length} bytes at {}", header.index_offset),
    };
    let first = format!(
        "reads {}, flows {}, key {}, header of {} bytes, {index}",
        header.reads,
        header.flows,
        shown_letters(key),
        header.length,
    );
    let letters = shown_letters(&bytes[FIXED_LENGTH..key_start]);
    vec![
        Line::Text(first),
        Line::Text(format!("flow letters {letters}")),
        Line::Text("read bases quality adapter insert name".to_string()),
    ]
}

fn read_line(bytes: &[u8], k: u64, read: Result<Read, Refusal>) -> Line {
    Line::Text(match read {
        Err(refusal) => format!("{k} {}", refused(refusal)),
        Ok(read) => {
            let [quality_left, quality_right] = read.quality_clip;
            let [adapter_left, adapter_right] = read.adapter_clip;
            let name = cleaned(&bytes[read.name]);
            format!(
                "{k} {} {quality_left} {quality_right} {adapter_left} {adapter_right} {} {} {name}",
                read.bases, read.first, read.last
            )
        }
    })
}
