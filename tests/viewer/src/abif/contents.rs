//! What a picture of an ABIF file must show, from the independent reader's answers.

use super::called::{Base, Called};
use super::range::Range;
use crate::picture::{part, Parts};
use compare::abif::reader::{lookup, text, whole_numbers, Tag};
use compare::refusal::Refusal;

/// How many points a row has where it is not said.
pub const USUAL_POINTS: usize = 500;
/// More letters than these in one row are too close to be drawn.
pub const MOST_LETTERS: usize = 250;
const LEAST_TOP_QUALITY: i64 = 60;
const MOST_DYES: i32 = 16;
const USUAL_DYES: i32 = 4;

pub type Numbers = Result<Vec<i64>, Refusal>;

/// A channel's part, its base where that is known, and its values.
pub struct Channel {
    pub part: String,
    pub base: Option<char>,
    pub values: Numbers,
    /// The dye's number, from one.
    pub dye: i32,
}

impl Channel {
    /// What the boxes call it.
    pub fn label(&self) -> String {
        match self.base {
            Some(base) => format!("{}, base {base}", self.part),
            None => self.part.clone(),
        }
    }

    pub fn length(&self) -> usize {
        self.values.as_ref().map_or(0, Vec::len)
    }
}

pub struct Contents {
    pub channels: Vec<Channel>,
    pub raw: bool,
    /// No base order and no called letters: fragments of many lengths and not a sequence.
    pub is_fragments: bool,
    pub parts: Parts,
    /// The shown letters of the rows in the range.
    pub bases: Vec<Base>,
    /// Letters whose trace is not there, but for those of rows that are left out.
    pub hidden: usize,
    /// The quality at the top of the bars' scale: the highest of the file, or 60.
    pub top_quality: i64,
    pub range: Range,
}

impl Contents {
    pub fn of(bytes: &[u8], raw: bool, points: Option<u64>) -> Contents {
        let raw = raw || analysed_are_missing(bytes);
        let is_fragments = is_of_fragments(bytes);
        let order = numbers(bytes, b"FWO_", 1);
        let bases = base_order(&order);
        let channels: Vec<Channel> = (1..=dyes(bytes, raw))
            .map(|dye| channel(bytes, raw, dye, bases))
            .collect();
        let longest = channels.iter().map(Channel::length).max().unwrap_or(0);
        let points = points.map_or(USUAL_POINTS, |points| points as usize);
        let mut contents = Contents {
            range: Range::of(longest, points),
            parts: refused_parts(&channels),
            channels,
            raw,
            is_fragments,
            bases: Vec::new(),
            hidden: 0,
            top_quality: LEAST_TOP_QUALITY,
        };
        contents.add_dyes(bytes);
        if !is_fragments {
            contents.add_part("FWO_ 1".to_string(), &order);
            contents.add_called(bytes, bases);
        }
        contents
    }

    fn add_part(&mut self, name: String, numbers: &Numbers) {
        let refusal = numbers.as_ref().err();
        self.parts
            .extend(refusal.map(|&refusal| part(name, refusal)));
    }

    // That the number of dyes is not there is no fault of a file.
    fn add_dyes(&mut self, bytes: &[u8]) {
        let dyes = numbers(bytes, b"Dye#", 1);
        if dyes != Err(Refusal::NotThere) {
            self.add_part("Dye# 1".to_string(), &dyes);
        }
    }

    fn add_called(&mut self, bytes: &[u8], order: Option<[char; 4]>) {
        if self.raw {
            return;
        }
        let called = Called::of(bytes);
        for (name, numbers) in called.named() {
            self.add_part(name, numbers);
        }
        if order.is_some() {
            let placed = called.bases(&self.channels, &self.range);
            self.hidden = placed.hidden;
            self.bases = placed.shown;
        }
        let highest = called.qualities.iter().flatten().copied().max();
        self.top_quality = self.top_quality.max(highest.unwrap_or(0));
    }

    pub fn refused_channels(&self) -> Parts {
        refused_parts(&self.channels)
    }

    /// The values of all channels that lie in the range.
    pub fn values_in_range(&self) -> impl Iterator<Item = i64> + '_ {
        let channels = self.channels.iter();
        channels.flat_map(|channel| self.range.values(channel).iter().copied())
    }

    /// How many rows at the front of a run of fragments are flat, and not drawn.
    pub fn folded(&self) -> usize {
        let (least, most) = self
            .values_in_range()
            .fold((0, 0), |it, value| (value.min(it.0), value.max(it.1)));
        let is_flat = |row: &usize| {
            let mut channels = self.channels.iter();
            channels
                .all(|channel| 50 * spread(self.range.values_in_row(channel, *row)) <= most - least)
        };
        let rows = self.range.rows();
        let flat = (0..rows).take_while(is_flat).count();
        if self.is_fragments && flat < rows {
            flat
        } else {
            0
        }
    }
}

/// The highest value less the lowest.
fn spread(values: &[i64]) -> i64 {
    let bounds = values.iter().max().zip(values.iter().min());
    bounds.map_or(0, |(most, least)| most - least)
}

fn is_of_fragments(bytes: &[u8]) -> bool {
    is_missing(bytes, b"FWO_", 1) && is_missing(bytes, b"PBAS", 1) && is_missing(bytes, b"PBAS", 2)
}

fn analysed_are_missing(bytes: &[u8]) -> bool {
    (1..=MOST_DYES).all(|dye| is_missing(bytes, b"DATA", channel_number(false, dye)))
}

pub fn is_missing(bytes: &[u8], name: &[u8; 4], number: i32) -> bool {
    matches!(
        lookup(bytes, Tag::new(name, number)),
        Err(Refusal::NotThere)
    )
}

// The numbers of the channels of the dyes behind the fourth go on elsewhere.
fn channel_number(raw: bool, dye: i32) -> i32 {
    match (raw, dye) {
        (true, 1..=4) => dye,
        (true, _) => 100 + dye,
        (false, 1..=4) => 8 + dye,
        (false, _) => 200 + dye,
    }
}

// As many as the file says, and at least those whose channels stand in the directory.
fn dyes(bytes: &[u8], raw: bool) -> i32 {
    let told = first_number(bytes, b"Dye#", 1).filter(|&dyes| dyes >= 1);
    let told = told.map_or(USUAL_DYES, |dyes| dyes.min(MOST_DYES.into()) as i32);
    let stands = |dye: &i32| !is_missing(bytes, b"DATA", channel_number(raw, *dye));
    let is_open = compare::abif::reader::open(bytes).is_ok();
    let highest = (1..=MOST_DYES).filter(stands).last().filter(|_| is_open);
    told.max(highest.unwrap_or(0))
}

fn channel(bytes: &[u8], raw: bool, dye: i32, bases: Option<[char; 4]>) -> Channel {
    let number = channel_number(raw, dye);
    let base = bases.and_then(|bases| bases.get(dye as usize - 1).copied());
    Channel {
        part: format!("DATA {number}"),
        base,
        values: numbers(bytes, b"DATA", number),
        dye,
    }
}

// An item of whole numbers has no more elements than bytes.
pub fn numbers(bytes: &[u8], name: &[u8; 4], number: i32) -> Numbers {
    let tag = Tag::new(name, number);
    let item = lookup(bytes, tag)?;
    let mut out = vec![0; item.length.min(item.count as usize)];
    let count = whole_numbers(bytes, tag, 1, &mut out)?;
    out.truncate(count);
    Ok(out)
}

/// An item's first element, where it is a whole number.
pub fn first_number(bytes: &[u8], name: &[u8; 4], number: i32) -> Option<i64> {
    let mut out = [0];
    let count = whole_numbers(bytes, Tag::new(name, number), 1, &mut out).ok()?;
    (count == 1).then_some(out[0])
}

/// An item's text, where it is one.
pub fn text_of<'a>(bytes: &'a [u8], name: &[u8; 4], number: i32) -> Option<&'a [u8]> {
    let place = text(bytes, Tag::new(name, number)).ok()?;
    Some(&bytes[place])
}

fn refused_parts(channels: &[Channel]) -> Parts {
    let refused = |channel: &Channel| {
        let refusal = channel.values.as_ref().err()?;
        Some(part(&channel.part, *refusal))
    };
    channels.iter().filter_map(refused).collect()
}

// The bases of the first four channels, where each of the four stands once.
fn base_order(order: &Numbers) -> Option<[char; 4]> {
    let order = order.as_ref().ok().filter(|order| order.len() == 4)?;
    let mut bases = [' '; 4];
    for base in "ACGT".chars() {
        let place = order
            .iter()
            .position(|&letter| letter == i64::from(base as u32))?;
        bases[place] = base;
    }
    Some(bases)
}
