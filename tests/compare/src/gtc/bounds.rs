//! Files made for one rule each, with faults at and around its bounds.

use super::damage::{offset_bounds, Change};
use super::draft::{
    is_snp_array, listed_ids, Draft, Entry, NUMBER_OF_SNPS, SCANNER, SNP_ARRAYS, VALUES,
};
use super::generate::{
    plain_file, random_content, scanner, snp_items, snp_of_code, text, Content, Items,
};
use super::Gtc;
use crate::format::{Damage, Files};
use crate::groups::compare_file;
use crate::groups::damaged::compare_changed;
use crate::random::Random;
use crate::report::Group;

/// Counts and numbers of SNPs: small ones, and those that agree in some bits or signs only.
const COUNTS: [u32; 14] = [
    0,
    1,
    2,
    3,
    255,
    258,
    0x1_0002,
    0x4000_0002,
    0x7FFF_FFFF,
    0x8000_0000,
    0x8000_0002,
    0xFFFF_FFFD,
    0xFFFF_FFFE,
    0xFFFF_FFFF,
];

/// Every id there is, alone behind the number of SNPs, with zeros where its item would be.
pub fn every_id(group: &mut Group) {
    let number = Entry {
        id: NUMBER_OF_SNPS,
        offset: 0,
        length: 0,
    };
    for id in 0..=u16::MAX {
        let entry = Entry {
            id,
            offset: 20,
            length: 0,
        };
        let draft = Draft::new(vec![number, entry], vec![0; 40]);
        compare_changed::<Gtc>(group, &draft);
    }
}

/// Every stated number of SNPs against every count of each array, with few elements there.
pub fn numbers_of_snps(group: &mut Group) {
    for (id, size) in SNP_ARRAYS {
        for number in COUNTS {
            for count in COUNTS {
                let item = [&count.to_le_bytes(), &vec![b'A'; 3 * size][..]].concat();
                let array = (id, Content::Item(item));
                let number = (NUMBER_OF_SNPS, Content::Field(number));
                compare_changed::<Gtc>(group, &plain_file(&[array, number]));
            }
        }
    }
    for number in COUNTS {
        for present in [0, 1, 2, 3, 258] {
            let snps = vec![snp_of_code(1); present];
            let mut draft = plain_file(&snp_items(&snps));
            Gtc::apply(Change::Snps(number), &mut draft);
            compare_changed::<Gtc>(group, &draft);
        }
    }
}

/// Every id once, twice or not at all among others, the number of SNPs at every place.
pub fn ids_twice(group: &mut Group) {
    let mut random = Random::new(21);
    let mut ids = listed_ids();
    ids.extend([0, 1017]);
    for &id in &ids {
        for other in [NUMBER_OF_SNPS, 10, 1002, 2000] {
            let orders: [&[u16]; 9] = [
                &[id],
                &[id, other],
                &[other, id],
                &[id, id],
                &[other, id, id],
                &[id, other, id],
                &[id, id, other],
                &[id, other, other],
                &[id, other, id, other],
            ];
            for order in orders {
                let contents = order
                    .iter()
                    .map(|&id| (id, random_content(&mut random, id, 2)));
                let items: Items = contents.collect();
                compare_changed::<Gtc>(group, &plain_file(&items));
            }
        }
    }
}

/// Every id's offset at and around the lowest, its right place and the end, in tables of any length.
pub fn offsets(group: &mut Group) {
    let mut random = Random::new(22);
    for id in listed_ids() {
        for others in [0, 1, 5] {
            let mut items = vec![(1017, Content::Field(0)); others];
            if is_snp_array(id) {
                items.push((NUMBER_OF_SNPS, Content::Field(2)));
            }
            items.insert(others / 2, (id, random_content(&mut random, id, 2)));
            let mut draft = plain_file(&items);
            draft.body.extend([0; 4]);
            for offset in offset_bounds(&draft, &draft.entries[others / 2]) {
                let mut changed = draft.clone();
                changed.entries[others / 2].offset = offset;
                compare_changed::<Gtc>(group, &changed);
            }
        }
    }
}

/// Numbers of entries around the most that there may be, and ids twice in a table of the most.
pub fn entry_counts(group: &mut Group) {
    let mut full = Gtc::long_file(&mut Random::new(23), 999);
    full.body.resize(full.body.len() + 12, 0);
    let counts = [
        0,
        1,
        998,
        999,
        1000,
        1001,
        1255,
        66_535,
        i32::MAX,
        -1,
        -999,
        i32::MIN,
    ];
    for count in counts {
        let mut draft = full.clone();
        draft.entry_count = count;
        compare_changed::<Gtc>(group, &draft);
    }
    let longer = Draft::new(full.entries.clone(), vec![0; full.table_end() + 6]);
    for count in [998, 999, 1000] {
        let mut draft = longer.clone();
        draft.entry_count = count;
        compare_changed::<Gtc>(group, &draft);
    }
    for (index, other) in [(998, 0), (998, 997), (500, 499), (1, 0)] {
        for id in VALUES.into_iter().chain([10, 1002, 1007]) {
            let mut draft = full.clone();
            draft.entries[index].id = id;
            draft.entries[other].id = id;
            compare_changed::<Gtc>(group, &draft);
        }
    }
}

/// Scanner data cut in every piece, by the end of the file and by lengths that reach past it.
pub fn scanner_pieces(group: &mut Group) {
    for lengths in 0..27 {
        let word = |place: u32| vec![b's'; [0, 1, 3][lengths / 3_usize.pow(place) % 3]];
        let data = scanner(&word(0), &word(1), &word(2));
        let draft = plain_file(&[(10, text(b"sample")), (SCANNER, data)]);
        let bytes = draft.bytes();
        for length in draft.entries[1].offset as usize..=bytes.len() {
            compare_file::<Gtc>(group, &bytes[..length], None);
        }
        for place in draft.entries[1].offset as usize..bytes.len() {
            for byte in [0, 1, 2, 4, 16, 255] {
                let mut changed = bytes.clone();
                changed[place] = byte;
                compare_file::<Gtc>(group, &changed, None);
            }
        }
    }
    let long = vec![b's'; 255];
    let bytes = plain_file(&[(SCANNER, scanner(&long, &long, &long))]).bytes();
    for length in (0..bytes.len()).step_by(7).chain([bytes.len() - 1]) {
        compare_file::<Gtc>(group, &bytes[..length], None);
    }
}
