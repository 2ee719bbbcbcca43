//! A file before it is written out, with every field open to change.

use super::reader::{ENTRY_LENGTH, HEADER_LENGTH};
use crate::answers::Verdict;
use crate::draft::write_over;
use crate::format;
use std::ops::Range;

pub const NUMBER_OF_SNPS: u16 = 1;
pub const TRANSFORMATIONS: u16 = 400;
pub const GENOTYPES: u16 = 1002;
pub const BASE_CALLS: u16 = 1003;
pub const SCANNER: u16 = 1005;

/// Ids whose value stands in the offset field.
pub const VALUES: [u16; 4] = [NUMBER_OF_SNPS, 2, 3, 1010];
pub const TEXTS: [u16; 9] = [10, 11, 12, 100, 101, 200, 201, 300, 1016];
/// Arrays of any count, with their element's size.
pub const ARRAYS: [(u16, usize); 3] = [(TRANSFORMATIONS, 52), (500, 2), (501, 2)];
/// Arrays with an element for each SNP, with its size.
pub const SNP_ARRAYS: [(u16, usize); 7] = [
    (1000, 2),
    (1001, 2),
    (GENOTYPES, 1),
    (BASE_CALLS, 2),
    (1004, 4),
    (1012, 4),
    (1013, 4),
];
/// Items of one size.
pub const BLOCKS: [(u16, usize); 7] = [
    (1006, 4),
    (1007, 1),
    (1008, 4),
    (1009, 4),
    (1011, 16),
    (1014, 6),
    (1015, 6),
];

/// All ids of the format, first the number of SNPs and last the arrays that depend on it.
pub fn listed_ids() -> Vec<u16> {
    let mut ids = VALUES.to_vec();
    ids.extend(TEXTS);
    ids.extend(ARRAYS.map(|(id, _)| id));
    ids.extend(BLOCKS.map(|(id, _)| id));
    ids.push(SCANNER);
    ids.extend(SNP_ARRAYS.map(|(id, _)| id));
    ids
}

/// The element's size of an array.
pub fn element_size(id: u16) -> Option<usize> {
    let mut arrays = ARRAYS.into_iter().chain(SNP_ARRAYS);
    arrays.find(|(other, _)| *other == id).map(|(_, size)| size)
}

pub fn is_snp_array(id: u16) -> bool {
    SNP_ARRAYS.iter().any(|(other, _)| *other == id)
}

/// An entry of the table; `length` is that of the item at its offset, 0 where there is none.
#[derive(Clone, Copy, Debug)]
pub struct Entry {
    pub id: u16,
    pub offset: u32,
    pub length: usize,
}

impl Entry {
    pub fn end(&self) -> usize {
        self.offset as usize + self.length
    }
}

/// `body` is the whole file's bytes; the header and the table are written over its front.
#[derive(Clone, Debug)]
pub struct Draft {
    pub mark: [u8; 3],
    pub version: u8,
    pub entry_count: i32,
    pub entries: Vec<Entry>,
    pub body: Vec<u8>,
}

impl Draft {
    /// A draft whose header tells the truth about its table.
    pub fn new(entries: Vec<Entry>, body: Vec<u8>) -> Draft {
        Draft {
            mark: *b"gtc",
            version: 5,
            entry_count: entries.len() as i32,
            entries,
            body,
        }
    }

    pub fn table_end(&self) -> usize {
        HEADER_LENGTH + ENTRY_LENGTH * self.entries.len()
    }

    pub fn bytes(&self) -> Vec<u8> {
        let mut front = self.mark.to_vec();
        front.push(self.version);
        front.extend(self.entry_count.to_le_bytes());
        for entry in &self.entries {
            front.extend(entry.id.to_le_bytes());
            front.extend(entry.offset.to_le_bytes());
        }
        let mut bytes = self.body.clone();
        write_over(&mut bytes, 0, &front);
        bytes
    }

    /// The entries whose items lie inside the file, with their indices.
    pub fn items(&self) -> impl Iterator<Item = (usize, &Entry)> {
        let entries = self.entries.iter().enumerate();
        entries.filter(|(_, entry)| entry.length > 0 && entry.end() <= self.body.len())
    }

    pub fn ids(&self) -> Vec<u16> {
        self.entries.iter().map(|entry| entry.id).collect()
    }
}

impl format::Draft for Draft {
    fn bytes(&self) -> Vec<u8> {
        Draft::bytes(self)
    }

    fn verdict(&self) -> Verdict {
        let ends = self.items().map(|(_, entry)| entry.end());
        let extent = ends.fold(self.table_end(), usize::max);
        let listed = listed_ids();
        let unlisted = self.entries.iter().filter(|it| !listed.contains(&it.id));
        Verdict {
            unjudged: unlisted.count() as u64,
            ..Verdict::whole(extent, self.bytes().len() - extent)
        }
    }

    // With what an item has besides free bytes.
    fn fields(&self) -> Vec<Range<usize>> {
        let mut fields = Vec::new();
        fields.push(0..HEADER_LENGTH);
        for index in 0..self.entries.len() {
            let place = HEADER_LENGTH + ENTRY_LENGTH * index;
            fields.push(place..place + ENTRY_LENGTH);
        }
        for (_, entry) in self.items() {
            let start = entry.offset as usize;
            let length = match entry.id {
                SCANNER | GENOTYPES | BASE_CALLS => entry.length,
                id if element_size(id).is_some() => 4,
                _ => 1,
            };
            fields.push(start..start + length);
        }
        fields
    }
}
