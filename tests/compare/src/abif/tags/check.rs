//! A whole file's tags against a profile, from the printed tables and the rules alone.

use super::profiles::rows_of;
use super::row::Row;
use crate::abif::reader::{self, Entry, Tag};
use crate::refusal::Refusal;
use std::collections::BTreeMap;

/// How many numbers tell a finding: name, number and finding.
pub const FINDING_NUMBERS: usize = 3;

#[derive(Clone, Copy, Debug, PartialEq, Eq)]
pub enum Finding {
    Missing = 1,
    OtherType = 2,
    NotInProfile = 3,
}

/// By name and number; names compare as unsigned bytes do, numbers with their signs.
pub type Findings = BTreeMap<(u32, i32), Finding>;

/// Writes all findings in tag order to the front of `out`, and returns how many they are.
pub fn check_tags(bytes: &[u8], profile: u64, out: &mut [i64]) -> Result<usize, Refusal> {
    let findings = findings_of(bytes, profile)?;
    if out.len() < FINDING_NUMBERS * findings.len() {
        return Err(Refusal::OutputTooSmall);
    }
    let slots = out.chunks_exact_mut(FINDING_NUMBERS);
    for (slot, (&(name, number), &finding)) in slots.zip(&findings) {
        slot.copy_from_slice(&[name.into(), number.into(), finding as i64]);
    }
    Ok(findings.len())
}

/// All findings of a whole file in this profile.
pub fn findings_of(bytes: &[u8], profile: u64) -> Result<Findings, Refusal> {
    reader::judge(bytes).map_err(|refused| refused.refusal)?;
    let rows = rows_of(profile).ok_or(Refusal::TypeNotHandled)?;
    let entries: Vec<Entry> = reader::open(bytes)?.entries(bytes).collect();
    Ok(findings(&entries, rows))
}

fn findings(entries: &[Entry], rows: &[Row]) -> Findings {
    let mut findings = Findings::new();
    let mut find = |tag: Tag, finding| findings.insert((tag.name, tag.number), finding);
    for entry in entries {
        match rows.iter().find(|row| row.has_tag(entry.tag)) {
            None => find(entry.tag, Finding::NotInProfile),
            Some(row) if !row.row_type.admits(entry) => find(entry.tag, Finding::OtherType),
            Some(_) => None,
        };
    }
    for tag in rows.iter().filter_map(Row::required_tag) {
        if entries.iter().all(|entry| entry.tag != tag) {
            find(tag, Finding::Missing);
        }
    }
    findings
}
