//! What checking a file's tags must print, by the independent tables.

use super::guessed::{guess, other_software, profile_words};
use super::listed::type_name;
use crate::verdict;
use crate::words::shown;
use compare::abif::reader::{open, Entry, Tag};
use compare::abif::tags::check::{findings_of, Finding};
use compare::abif::tags::profiles;
use compare::abif::tags::row::{Row, RowType};

const CAPITAL_I: u32 = u32::from_be_bytes(*b"OvrI");
const REMARK: &str = "  OvrI: the tables' Name columns print Ovrl, with a small L, and two of their descriptions OvrI, \
                      with a capital I, which instruments are likely to write";

/// The tags that the analysis programs add, with their numbers (Tables 9 and 10).
const ADDED_LATER: [(&[u8; 4], &[i32]); 24] = [
    (b"AEPt", &[1, 2]),
    (b"ARTN", &[1]),
    (b"ASPF", &[1]),
    (b"ASPt", &[1, 2]),
    (b"B1Pt", &[1, 2]),
    (b"BCTS", &[1]),
    (b"DATA", &[9, 10, 11, 12, 205]),
    (b"FTab", &[1]),
    (b"FVoc", &[1]),
    (b"Feat", &[1]),
    (b"NOIS", &[1]),
    (b"PBAS", &[1, 2]),
    (b"PCON", &[1, 2]),
    (b"PDMF", &[2]),
    (b"PLOC", &[1, 2]),
    (b"RevC", &[1]),
    (b"S/N%", &[1]),
    (b"SPAC", &[1, 2, 3]),
    (b"SVER", &[2]),
    (b"phAR", &[1]),
    (b"phCH", &[1]),
    (b"phDY", &[1]),
    (b"phQL", &[1]),
    (b"phTR", &[1, 2]),
];

pub fn added_later() -> Vec<Tag> {
    let tags = ADDED_LATER.iter();
    tags.flat_map(|(name, numbers)| numbers.iter().map(|&number| Tag::new(name, number)))
        .collect()
}

/// A line that is printed.
#[derive(Debug)]
pub enum Line {
    Words(String),
    /// A tag, whether a description follows it, and what is found.
    Found(String, bool, String),
}

impl Line {
    pub fn fits(&self, printed: &str) -> bool {
        match self {
            Line::Words(words) => printed == words,
            Line::Found(tag, is_described, words) => {
                let rest = printed.strip_prefix(&format!("  {tag}"));
                let between = rest.and_then(|rest| rest.strip_suffix(&format!(": {words}")));
                between.is_some_and(|between| match between.strip_prefix(", ") {
                    Some(description) => *is_described && !description.contains(": "),
                    None => !is_described && between.is_empty(),
                })
            }
        }
    }
}

/// How many findings there are of each kind.
#[derive(Default)]
pub struct Counts {
    pub missing: usize,
    pub other_type: usize,
    pub not_in_profile: usize,
    pub added_later: usize,
}

impl Counts {
    pub fn all(&self) -> usize {
        self.missing + self.other_type + self.not_in_profile
    }
}

pub struct Checked {
    pub lines: Vec<Line>,
    pub counts: Counts,
}

/// The lines for a whole file with this name, against this profile or the one that it is taken for.
pub fn check(name: &str, bytes: &[u8], profile: Option<u64>) -> Checked {
    let mut lines: Vec<Line> = Vec::new();
    let own = verdict::lines(name.as_bytes(), bytes);
    let own = String::from_utf8_lossy(&own).into_owned();
    lines.extend(own.lines().map(|line| Line::Words(line.to_string())));
    let profile = match profile {
        Some(profile) => {
            let words = format!("checked against {}", profile_words(profile));
            lines.push(Line::Words(words));
            profile
        }
        None => {
            let guess = guess(name, bytes);
            lines.push(Line::Words(guess.line));
            guess.profile
        }
    };
    lines.extend(other_software(bytes, profile).map(Line::Words));
    let (found, counts) = report(bytes, profile);
    lines.extend(found);
    Checked { lines, counts }
}

fn report(bytes: &[u8], profile: u64) -> (Vec<Line>, Counts) {
    let findings = findings_of(bytes, profile).unwrap_or_default();
    let mut counts = Counts::default();
    let (mut first, mut behind) = (Vec::new(), Vec::new());
    for (&(name, number), &finding) in &findings {
        let tag = Tag { name, number };
        let line = finding_line(bytes, profile, tag, finding);
        match finding {
            Finding::Missing => counts.missing += 1,
            Finding::OtherType => counts.other_type += 1,
            Finding::NotInProfile => counts.not_in_profile += 1,
        }
        if finding == Finding::NotInProfile && added_later().contains(&tag) {
            counts.added_later += 1;
            behind.push(line);
        } else {
            first.push(line);
        }
    }
    if findings.keys().any(|key| key.0 == CAPITAL_I) {
        first.push(Line::Words(REMARK.to_string()));
    }
    if !behind.is_empty() {
        first.push(Line::Words(analysis_words(behind.len())));
    }
    first.extend(behind);
    first.push(Line::Words(summary(&counts)));
    (first, counts)
}

fn analysis_words(count: usize) -> String {
    let (tags, them) = if count == 1 {
        ("tag", "it")
    } else {
        ("tags", "them")
    };
    format!(
        "{count} {tags} of the analysis programs, which add {them} after the run: not in the profile, as expected of \
         an analysed run"
    )
}

fn summary(counts: &Counts) -> String {
    if counts.all() == 0 {
        return "no findings: every tag that the profile requires is there, and each tag is of its type".to_string();
    }
    let findings = if counts.all() == 1 {
        "finding"
    } else {
        "findings"
    };
    let added = match counts.added_later {
        0 => String::new(),
        count => format!(", {count} of these of the analysis programs"),
    };
    format!(
        "{} {findings}: {} missing, {} of another type, {} not in the profile{added}",
        counts.all(),
        counts.missing,
        counts.other_type,
        counts.not_in_profile
    )
}

fn finding_line(bytes: &[u8], profile: u64, tag: Tag, finding: Finding) -> Line {
    let having = having(tag);
    let words = match finding {
        Finding::Missing => "missing".to_string(),
        Finding::OtherType => other_type(bytes, profile, tag),
        Finding::NotInProfile => not_in_profile(tag, &having),
    };
    let shown = format!("{} {}", shown(&tag.name.to_be_bytes()), tag.number);
    let is_described = !having.is_empty() || added_later().contains(&tag);
    Line::Found(shown, is_described, words)
}

// The profiles that have a tag.
fn having(tag: Tag) -> Vec<String> {
    let has = |rows: &[Row]| rows.iter().any(|row| row.has_tag(tag));
    let having = profiles::all().filter(|(_, rows)| has(rows));
    having.map(|(profile, _)| profile.to_string()).collect()
}

fn not_in_profile(tag: Tag, having: &[String]) -> String {
    let words = "not in the profile";
    match having {
        [] if added_later().contains(&tag) => words.to_string(),
        [] => format!("{words}, and in no other table"),
        [only] => format!("{words}, but in {only}"),
        [before @ .., last] => format!("{words}, but in {} and {last}", before.join(", ")),
    }
}

fn other_type(bytes: &[u8], profile: u64, tag: Tag) -> String {
    let rows = profiles::rows_of(profile).unwrap_or_default();
    let row = rows.iter().find(|row| row.has_tag(tag));
    let entries = open(bytes).map(|directory| directory.entries(bytes).collect::<Vec<Entry>>());
    let entry = entries
        .unwrap_or_default()
        .into_iter()
        .find(|entry| entry.tag == tag);
    let (Some(row), Some(entry)) = (row, entry) else {
        panic!("{tag:?} of another type in profile {profile}");
    };
    let told = match row.row_type.count() {
        Some(count) if row.row_type.code() == Some(entry.type_code) => {
            format!("{} of them where the table has {count}", entry.count)
        }
        _ => format!(
            "{} where the table has {}",
            type_name(entry.type_code),
            printed(row.row_type)
        ),
    };
    format!("another type, {told}")
}

// A row's type as it is printed.
fn printed(row_type: RowType) -> &'static str {
    match row_type {
        RowType::Byte => "byte",
        RowType::Char => "char",
        RowType::CharArray => "char array",
        RowType::FourChars => "char[4]",
        RowType::Short => "short",
        RowType::ShortArray => "short array",
        RowType::Long => "long",
        RowType::LongArray => "long array",
        RowType::Float => "float",
        RowType::Date => "date",
        RowType::Time => "time",
        RowType::PString => "pString",
        RowType::CString => "cString",
        RowType::User => "user",
    }
}
