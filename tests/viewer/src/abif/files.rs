//! Small sequencing runs to be cut and damaged.

use compare::abif::generate::{plain_file, Content, Order};
use compare::abif::reader::Tag;
use compare::random::Random;

pub type Items = Vec<(Tag, Content)>;

const SPACING: usize = 9;

/// Called bases in every way that the rules tell apart: sure, unsure, small, and no letters at all.
const LETTERS: &[u8] = b"GATCNRYSWKMBDHVgatcn-*G\x01A\xFF<&C";

/// Runs to be cut: the directory before and behind the data, one row and two, raw data alone, and
/// fragments of five dyes.
pub fn runs() -> Vec<Vec<u8>> {
    vec![
        run([60, 84, 41, 72], Order::DirectoryFirst),
        run([75, 60, 66, 60], Order::DirectoryLast),
        run([520, 600, 60, 501], Order::DirectoryFirst),
        raw_run(Order::DirectoryFirst),
        second_calls(),
        wide_calls(),
        Fragments::new(5, false, 60, 90).bytes(Order::DirectoryFirst),
    ]
}

/// A run of fragments before it is written out.
pub struct Fragments {
    pub items: Items,
}

impl Fragments {
    /// Channels of so many dyes and points, flat but for noise at the front, the last one shorter.
    pub fn new(dyes: usize, raw: bool, front: usize, length: usize) -> Fragments {
        let mut random = Random::new(78);
        let mut items = vec![dye_count(dyes as i16), string(b"SpNm", 1, b"ladder")];
        for dye in 1..=dyes {
            let name = format!("dye {dye}");
            items.push(string(b"DyeN", dye as i32, name.as_bytes()));
            items.push((
                Tag::new(b"DyeW", dye as i32),
                shorts([500 + 30 * dye as i16]),
            ));
            let length = if dye == dyes { length - 7 } else { length };
            let points = fragment_points(&mut random, front, length);
            items.push((dye_channel(dye as i32, raw), shorts(points)));
        }
        Fragments { items }
    }

    pub fn bytes(&self, order: Order) -> Vec<u8> {
        plain_file(&self.items, order).bytes()
    }
}

/// The tag of a dye's channel.
pub fn dye_channel(dye: i32, raw: bool) -> Tag {
    let number = match (raw, dye) {
        (true, 1..=4) => dye,
        (false, 1..=4) => 8 + dye,
        (true, _) => 100 + dye,
        (false, _) => 200 + dye,
    };
    Tag::new(b"DATA", number)
}

pub fn dye_count(count: i16) -> (Tag, Content) {
    (Tag::new(b"Dye#", 1), shorts([count]))
}

pub fn string(name: &[u8; 4], number: i32, text: &[u8]) -> (Tag, Content) {
    let counted = [&[text.len() as u8], text].concat();
    (Tag::new(name, number), Content::listed(18, counted))
}

pub fn shorts(numbers: impl IntoIterator<Item = i16>) -> Content {
    let data = numbers.into_iter().flat_map(i16::to_be_bytes);
    Content::listed(4, data.collect())
}

// Peaks of many heights behind the front, some of them below nought.
fn fragment_points(random: &mut Random, front: usize, length: usize) -> Vec<i16> {
    let mut points: Vec<i16> = (0..length).map(|_| random.below(21) as i16 - 8).collect();
    let mut place = front;
    while place < length {
        let height = random.pick(&[-300, 90, 400, 1500, 6000]);
        for (point, share) in points[place..].iter_mut().zip([1, 3, 8, 3, 1]) {
            *point += height * share / 8;
        }
        place += random.between(9, 160);
    }
    points
}

/// A run of fragments whose first rows of 500 points go as far up and down as these numbers say.
pub fn fragments_of(spreads: &[i16]) -> Vec<u8> {
    let mut points = Vec::new();
    for (row, &spread) in spreads.iter().enumerate() {
        points.resize(500 * row + 250, 0);
        points.push(spread);
    }
    points.resize(500 * spreads.len(), 0);
    let items = [dye_count(1), (dye_channel(1, true), shorts(points))];
    plain_file(&items, Order::DirectoryFirst).bytes()
}

/// A run whose channels are low up to a point, and high behind it.
pub fn rising(length: usize, place: usize) -> Vec<u8> {
    let mut random = Random::new(70);
    let mut items = letters_at(&[10, 20, 30]);
    items.push((Tag::new(b"FWO_", 1), Content::listed(2, b"GATC".to_vec())));
    for number in 9..=12 {
        let level = |point| if point <= place { 900 } else { 30_000 };
        let points = (0..length).map(|point| level(point) + random.below(90) as i16);
        items.push((Tag::new(b"DATA", number), shorts(points)));
    }
    plain_file(&items, Order::DirectoryFirst).bytes()
}

/// A run of four channels of the same length, with letters at these places.
pub fn lettered(length: usize, places: &[i16]) -> Vec<u8> {
    lettered_channels(&[length; 4], places)
}

/// A run of channels of these lengths, with letters at these places.
pub fn lettered_channels(lengths: &[usize], places: &[i16]) -> Vec<u8> {
    let mut random = Random::new(79);
    let mut items = letters_at(places);
    items.push((Tag::new(b"FWO_", 1), Content::listed(2, b"GATC".to_vec())));
    for (number, &length) in (9..).zip(lengths) {
        items.push((Tag::new(b"DATA", number), channel(&mut random, length)));
    }
    plain_file(&items, Order::DirectoryFirst).bytes()
}

/// Called letters at these places, one base after the other.
pub fn letters_at(places: &[i16]) -> Items {
    let letters = b"GATC".iter().copied().cycle().take(places.len());
    let qualities = (0..places.len()).map(|index| (index % 50) as u8);
    vec![
        (Tag::new(b"PBAS", 1), Content::listed(2, letters.collect())),
        (Tag::new(b"PLOC", 1), shorts(places.iter().copied())),
        (
            Tag::new(b"PCON", 1),
            Content::listed(2, qualities.collect()),
        ),
    ]
}

/// A run whose channels have these lengths, with raw data too.
pub fn run(lengths: [usize; 4], order: Order) -> Vec<u8> {
    let mut random = Random::new(71);
    let mut items = raw_channels(&mut random, [20, 23, 1, 18]);
    items.push((Tag::new(b"FWO_", 1), Content::listed(2, b"GATC".to_vec())));
    items.extend(called(&mut random, 1, lengths));
    for (number, length) in (9..).zip(lengths) {
        items.push((Tag::new(b"DATA", number), channel(&mut random, length)));
    }
    plain_file(&items, order).bytes()
}

/// A run whose base order is this item.
pub fn ordered(order: Content) -> Vec<u8> {
    let mut random = Random::new(76);
    let lengths = [21, 30, 27, 24];
    let mut items = called(&mut random, 1, lengths);
    items.push((Tag::new(b"FWO_", 1), order));
    for (number, length) in (9..).zip(lengths) {
        items.push((Tag::new(b"DATA", number), channel(&mut random, length)));
    }
    plain_file(&items, Order::DirectoryLast).bytes()
}

/// A run of four channels of the same length, and nothing else.
pub fn channels(length: usize) -> Vec<u8> {
    let mut random = Random::new(72);
    let items: Items = (9..=12)
        .map(|number| (Tag::new(b"DATA", number), channel(&mut random, length)))
        .collect();
    plain_file(&items, Order::DirectoryFirst).bytes()
}

/// A run whose channels lie at these levels, the first of them short, with letters over each.
pub fn levelled(levels: [i16; 4]) -> Vec<u8> {
    let mut random = Random::new(77);
    let lengths = [40, 900, 900, 900];
    let mut items = called(&mut random, 1, lengths);
    items.push((Tag::new(b"FWO_", 1), Content::listed(2, b"ACGT".to_vec())));
    for ((number, level), length) in (9..).zip(levels).zip(lengths) {
        let value = |_| level.saturating_add(random.below(90) as i16).to_be_bytes();
        let data = (0..length).flat_map(value).collect();
        items.push((Tag::new(b"DATA", number), Content::listed(4, data)));
    }
    plain_file(&items, Order::DirectoryFirst).bytes()
}

fn raw_run(order: Order) -> Vec<u8> {
    let mut random = Random::new(73);
    let mut items = raw_channels(&mut random, [64, 40, 97, 60]);
    items.push((Tag::new(b"FWO_", 1), Content::listed(2, b"ACGT".to_vec())));
    items.extend(called(&mut random, 1, [64, 40, 97, 60]));
    plain_file(&items, order).bytes()
}

// The bases of the second calling alone, with numbers of other types.
fn second_calls() -> Vec<u8> {
    let mut random = Random::new(74);
    let mut items = called(&mut random, 2, [80, 80, 80, 80]);
    items.push((Tag::new(b"FWO_", 1), Content::listed(1, b"TGCA".to_vec())));
    for (number, code) in (9..).zip([5, 3, 2, 1]) {
        let data = match code {
            5 => longs(&mut random, 80),
            3 => random.bytes(160),
            _ => random.bytes(80),
        };
        items.push((Tag::new(b"DATA", number), Content::listed(code, data)));
    }
    plain_file(&items, Order::DirectoryFirst).bytes()
}

// Letters, places and qualities of 32 bits, some of which look like others by their lowest bits.
fn wide_calls() -> Vec<u8> {
    let mut random = Random::new(75);
    let letters = [65, 321, -191, 65_601, 71, 84, 67, 97, i32::MIN, i32::MAX];
    let places = [3, 6, 9, 12, 15, 39, 40, 65_536, i32::MAX, i32::MIN];
    let qualities = [0, 60, 61, 100_000, i32::MAX, -1, i32::MIN, 256, 1, 2];
    let item = |name, numbers: [i32; 10]| {
        let data = numbers.into_iter().flat_map(i32::to_be_bytes).collect();
        (Tag::new(name, 1), Content::listed(5, data))
    };
    let mut items = vec![item(b"PBAS", letters), item(b"PLOC", places)];
    items.push(item(b"PCON", qualities));
    items.push((Tag::new(b"FWO_", 1), Content::listed(2, b"CATG".to_vec())));
    for number in 9..=12 {
        items.push((Tag::new(b"DATA", number), channel(&mut random, 40)));
    }
    plain_file(&items, Order::DirectoryFirst).bytes()
}

fn longs(random: &mut Random, count: usize) -> Vec<u8> {
    let number = |_| (random.below(200_000) as i32 - 50_000).to_be_bytes();
    (0..count).flat_map(number).collect()
}

fn raw_channels(random: &mut Random, lengths: [usize; 4]) -> Items {
    (1..)
        .zip(lengths)
        .map(|(number, length)| (Tag::new(b"DATA", number), channel(random, length)))
        .collect()
}

// Some values lie below nought.
fn channel(random: &mut Random, length: usize) -> Content {
    shorts((0..length).map(|_| random.below(1600) as i16 - 100))
}

// Bases over all of the longest channel, the last places past the end of one or of all.
fn called(random: &mut Random, number: i32, lengths: [usize; 4]) -> Items {
    let longest = lengths.into_iter().max().unwrap_or(0);
    let mut places: Vec<i16> = (0..longest + 2 * SPACING)
        .step_by(SPACING)
        .map(|place| place as i16)
        .collect();
    places.extend([-1, 500, longest as i16 - 1, longest as i16]);
    let letters: Vec<u8> = LETTERS.iter().copied().cycle().take(places.len()).collect();
    let qualities = places.iter().map(|_| random.between(0, 60) as u8);
    let mut qualities: Vec<u8> = qualities.collect();
    qualities[1] = 0xFF;
    qualities[2] = 0;
    vec![
        (Tag::new(b"PBAS", number), Content::listed(2, letters)),
        (Tag::new(b"PLOC", number), shorts(places)),
        (Tag::new(b"PCON", number), Content::listed(2, qualities)),
    ]
}
