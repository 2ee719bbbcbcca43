//! A small sequencing run as an instrument stores it: traces, called bases and their qualities.

use super::draft::Draft;
use super::generate::{plain_file, Content, Order};
use super::reader::Tag;
use crate::random::Random;

const BASES: usize = 145;
const FIRST_PLACE: usize = 18;
const SPACING: usize = 12;
/// The bases of the channels, in their order.
const BASE_ORDER: [u8; 4] = *b"GATC";
/// A peak's height at each distance from its place, in hundredths.
const PEAK: [usize; 10] = [100, 95, 80, 61, 41, 25, 14, 7, 3, 1];
/// A raw peak's, which is wider.
const RAW_PEAK: [usize; 14] = [100, 97, 89, 78, 64, 51, 38, 27, 19, 12, 7, 4, 2, 1];
/// The bases, from none, whose peaks cannot be told apart.
const UNCLEAR: [usize; 6] = [1, 38, 39, 86, 121, 143];
const DYE_OFFSETS: [usize; 4] = [1420, 860, 1180, 640];
const DYES: [&[u8]; 4] = [b"dR110", b"dR6G", b"dTAMRA", b"dROX"];

type Items = Vec<(Tag, Content)>;

/// A called base: its place, the heights of its peaks in the four channels, and how sure it is.
struct Base {
    letter: u8,
    place: usize,
    heights: [usize; 4],
    quality: u8,
}

/// The run, with the directory at 128 and the data of DATA 12 at the end.
pub fn run() -> Draft {
    run_of(BASES)
}

/// A run of so many bases.
pub fn run_of(count: usize) -> Draft {
    let mut random = Random::new(61);
    let bases = bases(&mut random, count);
    let mut items = named_items();
    items.extend(called_items(&bases));
    for channel in 0..4 {
        let points = raw_points(&mut random, &bases, channel);
        items.push((Tag::new(b"DATA", channel as i32 + 1), shorts(points)));
    }
    for channel in 0..4 {
        let points = analysed_points(&mut random, &bases, channel);
        items.push((Tag::new(b"DATA", channel as i32 + 9), shorts(points)));
    }
    file_of(&items)
}

/// A file of these items, with the directory, in the order of the tags, at 128 and the data behind it.
pub fn file_of(items: &[(Tag, Content)]) -> Draft {
    let mut draft = plain_file(items, Order::DirectoryFirst);
    draft
        .entries
        .sort_by_key(|entry| (entry.tag.name, entry.tag.number));
    draft
}

/// How many bytes the data of a channel take.
pub const fn channel_length() -> usize {
    2 * points_of(BASES)
}

const fn points_of(count: usize) -> usize {
    FIRST_PLACE + SPACING * count + 2
}

fn bases(random: &mut Random, count: usize) -> Vec<Base> {
    (0..count)
        .map(|index| {
            let place = FIRST_PLACE + SPACING * index + random.below(2);
            if UNCLEAR.contains(&index) {
                unclear_base(random, place)
            } else {
                clear_base(random, place, index.min(count - 1 - index))
            }
        })
        .collect()
}

// Less sure the nearer it is to an end of the run.
fn clear_base(random: &mut Random, place: usize, from_end: usize) -> Base {
    let channel = random.below(4);
    let mut heights = [0; 4];
    heights[channel] = random.between(500, 1600);
    Base {
        letter: BASE_ORDER[channel],
        place,
        heights,
        quality: (12 + 4 * from_end.min(9) + random.below(13)) as u8,
    }
}

// Two weak peaks at one place.
fn unclear_base(random: &mut Random, place: usize) -> Base {
    let first = random.below(4);
    let second = (first + random.between(1, 3)) % 4;
    let mut heights = [0; 4];
    heights[first] = random.between(150, 240);
    heights[second] = random.between(140, 230);
    Base {
        letter: b'N',
        place,
        heights,
        quality: random.between(5, 8) as u8,
    }
}

// The trace of one channel, its peaks so many points later than the bases' places.
fn peaks(bases: &[Base], channel: usize, kernel: &[usize], later: usize) -> Vec<usize> {
    let mut points = vec![0; points_of(bases.len())];
    for base in bases {
        for (at, point) in points.iter_mut().enumerate() {
            let distance = at.abs_diff(base.place + later);
            let share = kernel.get(distance).unwrap_or(&0);
            *point += base.heights[channel] * share / 100;
        }
    }
    points
}

fn analysed_points(random: &mut Random, bases: &[Base], channel: usize) -> Vec<usize> {
    let mut points = peaks(bases, channel, &PEAK, 0);
    for point in &mut points {
        *point += random.below(18);
    }
    points
}

// Above the dye's own light, which falls slowly, and moved as the dye moves the fragments.
fn raw_points(random: &mut Random, bases: &[Base], channel: usize) -> Vec<usize> {
    let mut points = peaks(bases, channel, &RAW_PEAK, 2 * channel);
    let length = points.len();
    for (at, point) in points.iter_mut().enumerate() {
        let offset = DYE_OFFSETS[channel] - DYE_OFFSETS[channel] * at / (8 * length);
        *point = offset + *point * (7 - channel) / 8 + random.below(25);
    }
    points
}

fn called_items(bases: &[Base]) -> Items {
    let letters: Vec<u8> = bases.iter().map(|base| base.letter).collect();
    let qualities: Vec<u8> = bases.iter().map(|base| base.quality).collect();
    let mut items = Items::new();
    for number in [1, 2] {
        let places = bases.iter().map(|base| base.place);
        items.push((Tag::new(b"PBAS", number), chars(&letters)));
        items.push((Tag::new(b"PCON", number), chars(&qualities)));
        items.push((Tag::new(b"PLOC", number), shorts(places)));
    }
    items
}

fn named_items() -> Items {
    let mut items = vec![
        (Tag::new(b"FWO_", 1), chars(&BASE_ORDER)),
        (Tag::new(b"LANE", 1), shorts([7])),
        (Tag::new(b"MODL", 1), chars(b"3130")),
        (
            Tag::new(b"RUND", 1),
            Content::listed(10, vec![0x07, 0xD7, 3, 14]),
        ),
        (
            Tag::new(b"RUNT", 1),
            Content::listed(11, vec![9, 26, 53, 0]),
        ),
        (Tag::new(b"SMPL", 1), text(b"lesson 4, tube 7")),
        (
            Tag::new(b"SPAC", 1),
            Content::listed(7, 12.0_f32.to_be_bytes().to_vec()),
        ),
    ];
    for (number, dye) in (1..).zip(DYES) {
        items.push((Tag::new(b"DyeN", number), text(dye)));
    }
    items
}

fn chars(bytes: &[u8]) -> Content {
    Content::listed(2, bytes.to_vec())
}

/// An item of shorts.
pub fn shorts(numbers: impl IntoIterator<Item = usize>) -> Content {
    let data = numbers
        .into_iter()
        .flat_map(|number| (number as i16).to_be_bytes());
    Content::listed(4, data.collect())
}

/// A pString.
pub fn text(letters: &[u8]) -> Content {
    Content::listed(18, [&[letters.len() as u8], letters].concat())
}
