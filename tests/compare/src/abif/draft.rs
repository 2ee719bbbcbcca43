//! A file before it is written out, with every field open to change.

use super::reader::Tag;
use crate::answers::Verdict;
use crate::draft::write_over;
use crate::format;
use std::ops::Range;

pub const LEGACY_CODES: [i16; 10] = [6, 9, 14, 15, 16, 17, 20, 128, 256, 384];
pub const LISTED_CODES: [i16; 13] = [1, 2, 3, 4, 5, 7, 8, 10, 11, 12, 13, 18, 19];

/// The 28 bytes of an entry; the offset field is kept as bytes because small items live in it.
#[derive(Clone, Copy, Debug)]
pub struct Record {
    pub tag: Tag,
    pub type_code: i16,
    pub element_size: i16,
    pub count: i32,
    pub data_size: i32,
    pub offset: [u8; 4],
    pub handle: i32,
}

impl Record {
    pub fn bytes(&self) -> [u8; 28] {
        let mut out = [0; 28];
        out[0..4].copy_from_slice(&self.tag.name.to_be_bytes());
        out[4..8].copy_from_slice(&self.tag.number.to_be_bytes());
        out[8..10].copy_from_slice(&self.type_code.to_be_bytes());
        out[10..12].copy_from_slice(&self.element_size.to_be_bytes());
        out[12..16].copy_from_slice(&self.count.to_be_bytes());
        out[16..20].copy_from_slice(&self.data_size.to_be_bytes());
        out[20..24].copy_from_slice(&self.offset);
        out[24..28].copy_from_slice(&self.handle.to_be_bytes());
        out
    }

    pub fn set_offset(&mut self, offset: i32) {
        self.offset = offset.to_be_bytes();
    }

    pub fn offset(&self) -> i32 {
        i32::from_be_bytes(self.offset)
    }

    pub fn is_inline(&self) -> bool {
        self.data_size <= 4
    }
}

/// `place` is where the directory is written, whatever the header says about it.
#[derive(Clone, Debug)]
pub struct Draft {
    pub mark: [u8; 4],
    pub version: i16,
    pub header: Record,
    pub place: usize,
    pub entries: Vec<Record>,
    pub body: Vec<u8>,
}

impl Draft {
    /// A draft whose header tells the truth about the directory; `body` is the whole file's bytes.
    pub fn new(place: usize, entries: Vec<Record>, body: Vec<u8>) -> Draft {
        let count = entries.len() as i32;
        let header = Record {
            tag: Tag::new(b"tdir", 1),
            type_code: 1023,
            element_size: 28,
            count,
            data_size: 28 * count,
            offset: (place as i32).to_be_bytes(),
            handle: 0,
        };
        Draft {
            mark: *b"ABIF",
            version: 101,
            header,
            place,
            entries,
            body,
        }
    }

    pub fn bytes(&self) -> Vec<u8> {
        let mut out = self.body.clone();
        let header = self.header.bytes();
        let front = [&self.mark[..], &self.version.to_be_bytes(), &header].concat();
        write_over(&mut out, 0, &front);
        for (index, entry) in self.entries.iter().enumerate() {
            write_over(&mut out, self.place + 28 * index, &entry.bytes());
        }
        out
    }

    pub fn tags(&self) -> Vec<Tag> {
        self.entries.iter().map(|entry| entry.tag).collect()
    }

    /// The extent that a whole file built from this draft has.
    pub fn extent(&self) -> usize {
        let directory_end = self.place + 28 * self.entries.len();
        let item_ends = self
            .entries
            .iter()
            .filter(|entry| !entry.is_inline())
            .map(|entry| entry.offset() as usize + entry.data_size as usize);
        item_ends.fold(directory_end, usize::max)
    }
}

impl format::Draft for Draft {
    fn bytes(&self) -> Vec<u8> {
        Draft::bytes(self)
    }

    fn verdict(&self) -> Verdict {
        let extent = self.extent();
        Verdict::whole(extent, self.bytes().len() - extent)
    }

    fn fields(&self) -> Vec<Range<usize>> {
        let entries = (0..self.entries.len()).map(|index| self.place + 28 * index);
        let mut fields: Vec<Range<usize>> = entries.map(|place| place..place + 28).collect();
        fields.push(0..34);
        fields
    }
}
