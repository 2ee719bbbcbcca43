//! Whole files of many shapes.

use super::draft::{
    element_size, is_snp_array, listed_ids, Draft, Entry, BASE_CALLS, BLOCKS, GENOTYPES,
    NUMBER_OF_SNPS, SCANNER, TEXTS, TRANSFORMATIONS,
};
use super::reader::{ENTRY_LENGTH, HEADER_LENGTH};
use super::Gtc;
use crate::floats::SINGLES;
use crate::format::Files;
use crate::little_endian::u32_at;
use crate::random::Random;

/// Near the listed ids, listed ones with their bytes swapped, and at the bounds.
pub const UNLISTED: [u16; 16] = [
    0, 4, 9, 13, 102, 256, 401, 502, 999, 1017, 2560, 4096, 32_768, 59_395, 61_955, 65_535,
];

const LETTERS: [u8; 5] = *b"ACGT-";
const OTHER_LETTERS: [u8; 8] = *b"acgtN.\0\xC1";
const HIGHEST_CODE: usize = 45;
const TRIES_TO_MOVE: usize = 4;

/// What an entry stands for, without its place in the file.
#[derive(Clone, Debug)]
pub enum Content {
    /// The offset field of a value, or of an id that is not listed.
    Field(u32),
    Item(Vec<u8>),
}

pub type Items = Vec<(u16, Content)>;

#[derive(Clone, Copy, Debug)]
pub struct Snp {
    pub code: u8,
    pub calls: [u8; 2],
    pub score_bits: u32,
    pub x: u16,
    pub y: u16,
}

/// A SNP of which only the genotype is of interest.
pub const fn snp_of_code(code: u8) -> Snp {
    Snp {
        code,
        calls: *b"AG",
        score_bits: 0x3F00_0000,
        x: 258,
        y: 772,
    }
}

pub fn text(characters: &[u8]) -> Content {
    Content::Item(counted(characters))
}

fn counted(characters: &[u8]) -> Vec<u8> {
    [&[characters.len() as u8], characters].concat()
}

/// An array whose count is that of its elements.
pub fn array<const N: usize>(elements: impl IntoIterator<Item = [u8; N]>) -> Content {
    let elements: Vec<[u8; N]> = elements.into_iter().collect();
    let mut bytes = (elements.len() as i32).to_le_bytes().to_vec();
    bytes.extend(elements.into_iter().flatten());
    Content::Item(bytes)
}

pub fn transformation(version: i32, floats: [u32; 12]) -> [u8; 52] {
    let mut bytes = [0; 52];
    bytes[..4].copy_from_slice(&version.to_le_bytes());
    for (slot, bits) in bytes[4..].chunks_exact_mut(4).zip(floats) {
        slot.copy_from_slice(&bits.to_le_bytes());
    }
    bytes
}

/// Scanner data with these three texts; the two numbers behind the first are always the same.
pub fn scanner(name: &[u8], version: &[u8], user: &[u8]) -> Content {
    let numbers = [500_u32, 600].map(u32::to_le_bytes).concat();
    Content::Item([counted(name), numbers, counted(version), counted(user)].concat())
}

/// The number of these SNPs and the five arrays of their records.
pub fn snp_items(snps: &[Snp]) -> Items {
    vec![
        (NUMBER_OF_SNPS, Content::Field(snps.len() as u32)),
        (1000, array(snps.iter().map(|snp| snp.x.to_le_bytes()))),
        (1001, array(snps.iter().map(|snp| snp.y.to_le_bytes()))),
        (GENOTYPES, array(snps.iter().map(|snp| [snp.code]))),
        (BASE_CALLS, array(snps.iter().map(|snp| snp.calls))),
        (
            1004,
            array(snps.iter().map(|snp| snp.score_bits.to_le_bytes())),
        ),
    ]
}

/// A whole file with these entries, its items back to back behind the table.
pub fn plain_file(items: &[(u16, Content)]) -> Draft {
    let mut layout = Layout::new(items);
    for index in 0..items.len() {
        layout.place(index);
    }
    layout.finish()
}

impl Files for Gtc {
    type Draft = Draft;

    // The entries of SNPs' records come beside those that `most` allows.
    fn random_file(random: &mut Random, most: usize) -> Draft {
        let count = snp_count(random);
        let mut items = Items::new();
        if !random.one_in(4) {
            items = snp_items(&random_snps(random, count));
        }
        let more = match random.below(40) {
            0 => 0,
            1 => listed_ids().len(),
            2..=30 => random.between(0, most.min(4)),
            _ => random.between(0, most),
        };
        for _ in 0..more {
            let id = new_id(random, &items);
            items.push((id, random_content(random, id, count)));
        }
        settle_snp_count(random, &mut items, count);
        random.shuffle(&mut items);
        let mut draft = random_layout(random, &items);
        if random.one_in(4) {
            overlap(random, &mut draft, count);
        }
        draft
    }

    // The listed ids, then others, in any order.
    fn long_file(random: &mut Random, count: usize) -> Draft {
        let snps = random.between(0, 6);
        let mut ids: Vec<u16> = listed_ids().into_iter().take(count).collect();
        while ids.len() < count {
            ids.push(unlisted_id(random));
        }
        random.shuffle(&mut ids);
        let contents = ids.iter().map(|&id| (id, random_content(random, id, snps)));
        let items: Items = contents.collect();
        random_layout(random, &items)
    }
}

/// A file like those of the instrument: every listed id, with sound records of so many SNPs.
pub fn array_file(random: &mut Random, snps: usize) -> Draft {
    let mut records = Vec::new();
    records.resize_with(snps, || random_snp(random, true));
    let floats = [712.5, 803.25, 15_000.0, 14_200.0, 0.075, 0.04];
    let mut bits = [0; 12];
    bits[..6].copy_from_slice(&floats.map(f32::to_bits));
    let mut items = snp_items(&records);
    items.push((TRANSFORMATIONS, array([transformation(1, bits)])));
    for id in listed_ids() {
        if items.iter().all(|(other, _)| *other != id) {
            items.push((id, random_content(random, id, snps)));
        }
    }
    plain_file(&items)
}

fn snp_count(random: &mut Random) -> usize {
    match random.below(40) {
        0 => random.between(10, 300),
        1..=4 => 0,
        5..=10 => 1,
        _ => random.between(2, 8),
    }
}

// A listed id that is not there yet, or any other.
fn new_id(random: &mut Random, items: &[(u16, Content)]) -> u16 {
    let free: Vec<u16> = listed_ids()
        .into_iter()
        .filter(|id| items.iter().all(|(other, _)| other != id))
        .collect();
    if free.is_empty() || random.one_in(4) {
        return unlisted_id(random);
    }
    random.pick(&free)
}

fn unlisted_id(random: &mut Random) -> u16 {
    let id = random.next_u64() as u16;
    if random.one_in(2) || listed_ids().contains(&id) {
        return random.pick(&UNLISTED);
    }
    id
}

// The number of SNPs must be there for their arrays; without them it is any number.
fn settle_snp_count(random: &mut Random, items: &mut Items, count: usize) {
    let is_needed = items.iter().any(|(id, _)| is_snp_array(*id));
    let value = Content::Field(if is_needed {
        count as u32
    } else {
        random_field(random)
    });
    let place = items.iter().position(|(id, _)| *id == NUMBER_OF_SNPS);
    match place {
        Some(place) => items[place].1 = value,
        None if is_needed => items.push((NUMBER_OF_SNPS, value)),
        None => {}
    }
}

fn random_field(random: &mut Random) -> u32 {
    match random.below(4) {
        0 => random.pick(&[0, 1, 1 << 31, u32::MAX, i32::MAX as u32]),
        1 => random.below(1000) as u32,
        _ => random.next_u64() as u32,
    }
}

/// An item of this id, or a field where it has none.
pub fn random_content(random: &mut Random, id: u16, snps: usize) -> Content {
    if id == NUMBER_OF_SNPS {
        return Content::Field(snps as u32);
    }
    if id == SCANNER {
        let [name, version, user] = [(); 3].map(|()| random_text(random));
        return scanner(&name, &version, &user);
    }
    if TEXTS.contains(&id) {
        return text(&random_text(random));
    }
    if let Some((_, length)) = BLOCKS.into_iter().find(|(other, _)| *other == id) {
        return Content::Item(random.bytes(length));
    }
    match id {
        TRANSFORMATIONS => {
            let count = random.pick(&[0, 1, 1, 1, 2, 3]);
            array((0..count).map(|_| random_transformation(random)))
        }
        500 | 501 => {
            let count = random.below(6);
            array((0..count).map(|_| random_pair(random)))
        }
        GENOTYPES => array(random_snps(random, snps).iter().map(|snp| [snp.code])),
        BASE_CALLS => array(random_snps(random, snps).iter().map(|snp| snp.calls)),
        1000 | 1001 => array((0..snps).map(|_| random_pair(random))),
        _ if is_snp_array(id) => array((0..snps).map(|_| random_bits(random).to_le_bytes())),
        _ => Content::Field(random_field(random)),
    }
}

fn random_text(random: &mut Random) -> Vec<u8> {
    let length = match random.below(40) {
        0 => 255,
        1 => random.between(13, 254),
        2..=7 => 0,
        _ => random.between(1, 12),
    };
    random.bytes(length)
}

fn random_pair(random: &mut Random) -> [u8; 2] {
    random_intensity(random).to_le_bytes()
}

fn random_intensity(random: &mut Random) -> u16 {
    match random.below(6) {
        0 => 0,
        1 => u16::MAX,
        _ => random.next_u64() as u16,
    }
}

fn random_bits(random: &mut Random) -> u32 {
    if random.one_in(2) {
        random.pick(&SINGLES)
    } else {
        random.next_u64() as u32
    }
}

fn random_transformation(random: &mut Random) -> [u8; 52] {
    let any = random.next_u64() as i32;
    let version = random.pick(&[1, 1, 2, 0, -1, i32::MIN, i32::MAX, any]);
    transformation(version, [(); 12].map(|()| random_bits(random)))
}

/// SNPs of which all are sound, or some have a genotype or a base call that is forbidden.
pub fn random_snps(random: &mut Random, count: usize) -> Vec<Snp> {
    let is_sound = !random.one_in(4);
    (0..count).map(|_| random_snp(random, is_sound)).collect()
}

pub fn random_snp(random: &mut Random, is_sound: bool) -> Snp {
    let mut snp = Snp {
        code: random.between(0, HIGHEST_CODE) as u8,
        calls: [(); 2].map(|()| random.pick(&LETTERS)),
        score_bits: random_bits(random),
        x: random_intensity(random),
        y: random_intensity(random),
    };
    if !is_sound {
        match random.below(10) {
            0 => snp.code = random.pick(&[46, 47, 128, 255]),
            1 => snp.code = random.between(HIGHEST_CODE + 1, 255) as u8,
            2 => snp.calls[random.below(2)] = random.pick(&OTHER_LETTERS),
            3 => snp.calls[random.below(2)] = random.next_u64() as u8,
            _ => {}
        }
    }
    snp
}

// Items in a random order with random gaps between them and bytes behind them.
fn random_layout(random: &mut Random, items: &[(u16, Content)]) -> Draft {
    let mut order: Vec<usize> = (0..items.len()).collect();
    random.shuffle(&mut order);
    let mut layout = Layout::new(items);
    for index in order {
        if random.one_in(4) {
            let length = random.below(9);
            layout.body.extend(random.bytes(length));
        }
        layout.place(index);
    }
    if random.one_in(3) {
        let length = random.below(20);
        layout.body.extend(random.bytes(length));
    }
    layout.finish()
}

// Moves some items to other items' places or to any place, where the bytes there make such an item.
fn overlap(random: &mut Random, draft: &mut Draft, snps: usize) {
    let lowest = draft.table_end();
    let mut places: Vec<usize> = draft.items().map(|(_, it)| it.offset as usize).collect();
    places.push(lowest);
    for entry in draft.entries.iter_mut().filter(|entry| entry.length > 0) {
        for _ in 0..random.below(TRIES_TO_MOVE) {
            let mut place = random.pick(&places);
            if random.one_in(2) {
                place = random.between(lowest, draft.body.len());
            }
            if let Some(length) = length_there(entry.id, &draft.body, place, snps) {
                entry.offset = place as u32;
                entry.length = length;
            }
        }
    }
}

// The length of an item of this id at this place, if there is one.
fn length_there(id: u16, body: &[u8], place: usize, snps: usize) -> Option<usize> {
    let left = body.len() - place;
    let block = BLOCKS.into_iter().find(|(other, _)| *other == id);
    let length = if let Some((_, length)) = block {
        length
    } else if TEXTS.contains(&id) {
        1 + usize::from(*body.get(place)?)
    } else {
        let size = element_size(id)?;
        let count = (left >= 4).then(|| u32_at(body, place))?;
        if count > i32::MAX as u32 || (is_snp_array(id) && count as usize != snps) {
            return None;
        }
        4 + count as usize * size
    };
    (length <= left).then_some(length)
}

struct Layout<'a> {
    items: &'a [(u16, Content)],
    entries: Vec<Entry>,
    body: Vec<u8>,
}

impl<'a> Layout<'a> {
    fn new(items: &'a [(u16, Content)]) -> Layout<'a> {
        let entries = items.iter().map(|(id, content)| Entry {
            id: *id,
            offset: match content {
                Content::Field(field) => *field,
                Content::Item(_) => 0,
            },
            length: 0,
        });
        Layout {
            items,
            entries: entries.collect(),
            body: vec![0; HEADER_LENGTH + ENTRY_LENGTH * items.len()],
        }
    }

    fn place(&mut self, index: usize) {
        if let Content::Item(bytes) = &self.items[index].1 {
            self.entries[index].offset = self.body.len() as u32;
            self.entries[index].length = bytes.len();
            self.body.extend(bytes);
        }
    }

    fn finish(self) -> Draft {
        Draft::new(self.entries, self.body)
    }
}
