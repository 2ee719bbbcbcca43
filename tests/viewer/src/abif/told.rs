//! The checks of what stands above the rows: the channels, the sample's name and the notes.

use super::contents::{first_number, text_of, Channel, Contents};
use crate::findings::Findings;
use crate::picture::{all, grouped, is_or_shortened, of_class, pages};
use crate::verdict;
use crate::words::cleaned;
use crate::xml::Element;

/// Checks the line of each channel that is there, the sample's name and the notes.
pub fn check_told(findings: &mut Findings, root: &Element, bytes: &[u8], contents: &Contents) {
    let texts: Vec<&str> = all(root)
        .into_iter()
        .filter(|element| element.name == "text")
        .map(|element| element.words.as_str())
        .collect();
    for channel in &contents.channels {
        check_channel(findings, &texts, bytes, contents.raw, channel);
    }
    check_sample(findings, root, bytes, contents);
    check_notes(findings, &texts, contents);
    check_dyes(findings, &texts, bytes);
}

fn check_channel(
    findings: &mut Findings,
    texts: &[&str],
    bytes: &[u8],
    raw: bool,
    channel: &Channel,
) {
    let start = format!("{} ", channel.part);
    let mut lines: Vec<&&str> = texts
        .iter()
        .filter(|text| text.starts_with(&start))
        .collect();
    lines.retain(|line| line.contains(" point") || line.contains('…'));
    let expected = channel.values.as_ref().ok().map(|values| {
        let mut line = channel.part.clone();
        let facts = facts(bytes, raw, channel, values.len());
        line.push(' ');
        line.push_str(&facts.join(", "));
        line
    });
    let fits = match &expected {
        None => lines.is_empty(),
        Some(expected) => matches!(lines[..], [line] if is_or_shortened(line, expected)),
    };
    findings.check(fits, || {
        format!("{}: {lines:?} and not {expected:?}", channel.part)
    });
}

// What is told of a channel, in this order, where it is known.
fn facts(bytes: &[u8], raw: bool, channel: &Channel, count: usize) -> Vec<String> {
    let dye = text_of(bytes, b"DyeN", channel.dye);
    let wave_length = first_number(bytes, b"DyeW", channel.dye);
    let kind = if raw { "raw" } else { "analysed" };
    let is_refused = verdict::refused(bytes).is_some();
    let facts = [
        channel.base.map(|base| format!("base {base}")),
        dye.map(|dye| format!("dye {}", cleaned(dye))),
        wave_length.map(|length| format!("{} nm", grouped(length))),
        Some(kind.to_string()),
        Some(match count {
            1 => "1 point".to_string(),
            count => format!("{} points", grouped(count as i64)),
        }),
        is_refused.then(|| "file refused".to_string()),
    ];
    facts.into_iter().flatten().collect()
}

// The name of the sample stands in the facts, at the top.
fn check_sample(findings: &mut Findings, root: &Element, bytes: &[u8], contents: &Contents) {
    let names = match contents.is_fragments {
        true => [b"SpNm", b"SMPL"],
        false => [b"SMPL", b"SpNm"],
    };
    let sample = names.into_iter().find_map(|name| text_of(bytes, name, 1));
    let first = pages(root).first().map(|page| of_class(page, "facts"));
    let facts: Vec<&str> = first
        .into_iter()
        .flatten()
        .map(|text| text.words.as_str())
        .collect();
    let told = facts.iter().find_map(|facts| facts.split_once("; sample "));
    let fits = match (told, sample) {
        (None, None) => true,
        (Some((_, told)), Some(sample)) => is_or_shortened(told, &cleaned(sample)),
        _ => false,
    };
    findings.check(fits, || {
        let sample = sample.map(cleaned);
        format!("the facts are {facts:?}, the sample is {sample:?}")
    });
}

// That a file says of more dyes than are drawn is told.
fn check_dyes(findings: &mut Findings, texts: &[&str], bytes: &[u8]) {
    let told = first_number(bytes, b"Dye#", 1).filter(|&dyes| dyes > 16);
    let mut notes = texts.iter().filter(|text| text.contains("Dye# 1"));
    let is_told = |dyes| notes.any(|note| note.contains("16") && note.contains(&grouped(dyes)));
    findings.check(told.is_none_or(is_told), || {
        format!("nothing is told of {told:?} dyes")
    });
}

fn check_notes(findings: &mut Findings, texts: &[&str], contents: &Contents) {
    let hidden = format!(
        "Letters not shown, because their trace cannot be read at their place: {}.",
        grouped(contents.hidden as i64)
    );
    let mut told = texts
        .iter()
        .filter(|text| text.starts_with("Letters not shown"));
    let fits = match told.next() {
        None => contents.hidden == 0,
        Some(told) => contents.hidden > 0 && **told == hidden,
    };
    findings.check(fits, || format!("no text says {hidden:?}"));
    let is_own = texts.iter().any(|text| text.contains("scale of its own"));
    findings.check(is_own == contents.is_fragments, || {
        format!("scales of their own: {is_own}")
    });
}
