//! Which profile a file must be taken for, and the reason, by the independent tables.

use crate::words::{cleaned, shown};
use compare::abif::reader::{lookup, open, text, Entry, Tag};
use compare::abif::tags::check::findings_of;
use compare::abif::tags::profiles;
use compare::abif::tags::row::Row;
use std::collections::BTreeSet;

const CHAR: i16 = 2;
/// As much of a text is told as a pString can hold.
const MOST_SAID: usize = 255;
const SOFTWARE: (&[u8; 4], i32) = (b"SVER", 1);
/// The tags that name the instrument, and whether a user chose the name.
const NAMING: [(&[u8; 4], i32, bool); 4] = [
    (b"HCFG", 3, false),
    (b"MODL", 1, false),
    (b"RunN", 1, true),
    (b"MCHN", 1, true),
];

/// A profile by its words.
pub struct Profile {
    pub instrument: &'static str,
    pub software: &'static str,
    pub kind: &'static str,
}

impl Profile {
    const fn new(instrument: &'static str, software: &'static str, kind: &'static str) -> Profile {
        Profile {
            instrument,
            software,
            kind,
        }
    }

    fn model(&self) -> &'static str {
        &self.instrument[..4]
    }
}

pub const PROFILES: [Profile; 8] = [
    Profile::new("3100/3100-Avant", "2.0", "ab1"),
    Profile::new("3100/3100-Avant", "2.0", "fsa"),
    Profile::new("3130/3130xl", "3.0", "ab1"),
    Profile::new("3130/3130xl", "3.0", "fsa"),
    Profile::new("3730/3730xl", "2.0", "ab1"),
    Profile::new("3730/3730xl", "2.0", "fsa"),
    Profile::new("3730/3730xl", "3.0", "ab1"),
    Profile::new("3730/3730xl", "3.0", "fsa"),
];

fn profile_of(number: u64) -> &'static Profile {
    &PROFILES[number as usize - 1]
}

/// A profile as it is told.
pub fn profile_words(profile: u64) -> String {
    let it = profile_of(profile);
    format!(
        "profile {profile}, {}, Data Collection v{}, {}",
        it.instrument, it.software, it.kind
    )
}

pub struct Guess {
    pub profile: u64,
    /// The line that tells it.
    pub line: String,
    /// What a table of files says of it.
    pub since: String,
}

/// Of a whole file with this name.
pub fn guess(name: &str, bytes: &[u8]) -> Guess {
    let instrument = Instrument::of(bytes);
    let mut reasons = vec![instrument.reason];
    let mut left: Vec<u64> = (1..=PROFILES.len() as u64).collect();
    if let Some(model) = instrument.model {
        left.retain(|&profile| profile_of(profile).model() == model);
    }
    if let (Some("3730"), Some(digit)) = (instrument.model, version(bytes)) {
        left.retain(|&profile| profile_of(profile).software.starts_with('2') == (digit < 3));
        reasons.push(saying(bytes, SOFTWARE));
    }
    if let Some((kind, reason)) = kind_told(name, bytes) {
        left.retain(|&profile| profile_of(profile).kind == kind);
        reasons.push(reason);
    }
    let findings = |profile: &u64| findings_of(bytes, *profile).map_or(0, |found| found.len());
    let profile = left.iter().copied().min_by_key(findings).unwrap_or(0);
    let mut since = instrument.tag;
    if left.len() > 1 {
        since = "closest".to_string();
        reasons.push(format!(
            "of the {} profiles that are left this is the closest, with {} findings; --profile takes another",
            left.len(),
            findings(&profile)
        ));
    }
    let told = profile_words(profile);
    let line = format!("taken for {told}, since {}", reasons.join("; "));
    Guess {
        profile,
        line,
        since,
    }
}

// The first digit of the software's version.
fn version(bytes: &[u8]) -> Option<u32> {
    said(bytes, SOFTWARE)?.chars().next()?.to_digit(10)
}

/// What is told of software that the profile is not of.
pub fn other_software(bytes: &[u8], profile: u64) -> Option<String> {
    let software = profile_of(profile).software;
    let text = said(bytes, SOFTWARE)?;
    let told = format!(
        "  {}, and the table is of v{software}: another version may write other tags",
        saying(bytes, SOFTWARE)
    );
    (!text.is_empty() && !text.starts_with(software)).then_some(told)
}

struct Instrument {
    model: Option<&'static str>,
    tag: String,
    reason: String,
}

impl Instrument {
    fn of(bytes: &[u8]) -> Instrument {
        let mut other = "no tag names the instrument".to_string();
        for (name, number, of_users) in NAMING.into_iter().rev() {
            let Some(text) = said(bytes, (name, number)).filter(|text| !text.is_empty()) else {
                continue;
            };
            if model_in(&text).is_none() && !of_users {
                other = format!(
                    "{}, for which there is no table",
                    saying(bytes, (name, number))
                );
            }
        }
        for (name, number, _) in NAMING {
            let model = said(bytes, (name, number)).and_then(|text| model_in(&text));
            if model.is_some() {
                return Instrument {
                    model,
                    tag: format!("{} {number}", shown(name)),
                    reason: saying(bytes, (name, number)),
                };
            }
        }
        Instrument {
            model: None,
            tag: String::new(),
            reason: other,
        }
    }
}

// The model whose number is one of the text's numbers.
fn model_in(text: &str) -> Option<&'static str> {
    let mut numbers = text.split(|letter: char| !letter.is_ascii_digit());
    numbers.find_map(|number| {
        let mut models = PROFILES.iter().map(Profile::model);
        models.find(|model| *model == number)
    })
}

// The text or the letters of an item, without the blanks behind them; each byte is a letter of its own.
fn said(bytes: &[u8], (name, number): (&[u8; 4], i32)) -> Option<String> {
    Some(
        said_bytes(bytes, Tag::new(name, number))?
            .iter()
            .map(|&byte| char::from(byte))
            .collect(),
    )
}

fn said_bytes(bytes: &[u8], tag: Tag) -> Option<&[u8]> {
    let item = lookup(bytes, tag).ok()?;
    let said = match text(bytes, tag) {
        Ok(text) => &bytes[text],
        Err(_) if item.type_code == CHAR => &bytes[item.start..item.start + item.length],
        Err(_) => return None,
    };
    let said = &said[..said.len().min(MOST_SAID)];
    let blanks = said
        .iter()
        .rev()
        .take_while(|byte| matches!(byte, 0 | b' '));
    Some(&said[..said.len() - blanks.count()])
}

fn saying(bytes: &[u8], (name, number): (&[u8; 4], i32)) -> String {
    let text = said_bytes(bytes, Tag::new(name, number)).unwrap_or_default();
    format!("{} {number} says {}", shown(name), cleaned(text))
}

// The kind of file and what tells it: the tags that stand in tables of one kind alone, or the name's end.
fn kind_told(name: &str, bytes: &[u8]) -> Option<(&'static str, String)> {
    let entries: Vec<Entry> = open(bytes).ok()?.entries(bytes).collect();
    let telling = |kind| -> Vec<Tag> {
        let tags = entries.iter().map(|entry| entry.tag);
        tags.filter(|&tag| kind_of(tag) == Some(kind)).collect()
    };
    let (ab1, fsa) = (telling("ab1"), telling("fsa"));
    if ab1.len() == fsa.len() {
        let name = name.to_ascii_lowercase();
        let mut kinds = ["ab1", "fsa"].into_iter();
        let kind = kinds.find(|kind| name.ends_with(&format!(".{kind}")))?;
        return Some((kind, format!("the file's name ends in .{kind}")));
    }
    let (kind, tags) = if ab1.len() > fsa.len() {
        ("ab1", ab1)
    } else {
        ("fsa", fsa)
    };
    let first = format!("{} {}", shown(&tags[0].name.to_be_bytes()), tags[0].number);
    let reason = match tags.len() {
        1 => format!("{first} stands in {kind} tables alone"),
        count => format!("{count} tags, {first} the first, stand in {kind} tables alone"),
    };
    Some((kind, reason))
}

// The kind of file that alone has this tag in its tables.
fn kind_of(tag: Tag) -> Option<&'static str> {
    let has = |rows: &[Row]| rows.iter().any(|row| row.has_tag(tag));
    let kinds: BTreeSet<&str> = profiles::all()
        .filter(|(_, rows)| has(rows))
        .map(|(profile, _)| profile_of(profile).kind)
        .collect();
    if kinds.len() == 1 {
        kinds.into_iter().next()
    } else {
        None
    }
}
