//! A file before it is written out, with every field open to change.

use super::reader::{FIXED_HEADER, FIXED_READ_HEADER};
use crate::answers::Verdict;
use crate::format;
use std::ops::Range;

/// The parts of a read as they are written, whatever its lengths say about them.
#[derive(Clone, Debug)]
pub struct Read {
    pub header_length: u16,
    pub name_length: u16,
    pub bases: u32,
    /// Quality clip left and right, adapter clip left and right.
    pub clips: [u16; 4],
    pub name: Vec<u8>,
    pub name_padding: Vec<u8>,
    pub flow_values: Vec<u8>,
    pub steps: Vec<u8>,
    pub letters: Vec<u8>,
    pub qualities: Vec<u8>,
    pub padding: Vec<u8>,
}

impl Read {
    /// A read of so many flows, with a base for each step, whose lengths tell the truth.
    pub fn new(name: &[u8], flows: u16, steps: &[u8]) -> Read {
        let bases = steps.len();
        let name_padding = padding(FIXED_READ_HEADER + name.len());
        let header_length = FIXED_READ_HEADER + name.len() + name_padding.len();
        Read {
            header_length: header_length as u16,
            name_length: name.len() as u16,
            bases: bases as u32,
            clips: [0; 4],
            name: name.to_vec(),
            name_padding,
            flow_values: (0..flows).flat_map(u16::to_be_bytes).collect(),
            steps: steps.to_vec(),
            letters: b"TACG".iter().copied().cycle().take(bases).collect(),
            qualities: (1..=40).cycle().take(bases).collect(),
            padding: padding(2 * usize::from(flows) + 3 * bases),
        }
    }

    fn name_end(&self) -> usize {
        FIXED_READ_HEADER + self.name.len() + self.name_padding.len()
    }

    pub fn bytes(&self) -> Vec<u8> {
        let clips: Vec<u8> = self.clips.into_iter().flat_map(u16::to_be_bytes).collect();
        [
            &self.header_length.to_be_bytes()[..],
            &self.name_length.to_be_bytes(),
            &self.bases.to_be_bytes(),
            &clips,
            &self.name,
            &self.name_padding,
            &self.flow_values,
            &self.steps,
            &self.letters,
            &self.qualities,
            &self.padding,
        ]
        .concat()
    }
}

/// Zeros from here to the next multiple of 8.
pub fn padding(length: usize) -> Vec<u8> {
    vec![0; length.next_multiple_of(8) - length]
}

/// The index's bytes with their padding, and how many reads stand before it.
#[derive(Clone, Debug)]
pub struct Index {
    pub behind: usize,
    pub length: u32,
    pub bytes: Vec<u8>,
}

impl Index {
    pub fn new(behind: usize, contents: &[u8]) -> Index {
        Index {
            behind,
            length: contents.len() as u32,
            bytes: [contents, &padding(contents.len())].concat(),
        }
    }
}

/// Where the parts of the written file stand.
pub struct Layout {
    pub header_end: usize,
    pub reads: Vec<usize>,
    pub index: Option<usize>,
    pub end: usize,
}

/// `index` and `reads` are written in their order, whatever the header says about them.
#[derive(Clone, Debug)]
pub struct Draft {
    pub mark: [u8; 4],
    pub version: [u8; 4],
    pub index_offset: u64,
    pub index_length: u32,
    pub read_count: u32,
    pub header_length: u16,
    pub key_length: u16,
    pub flows: u16,
    pub code: u8,
    pub letters: Vec<u8>,
    pub header_padding: Vec<u8>,
    pub reads: Vec<Read>,
    pub index: Option<Index>,
    pub tail: Vec<u8>,
    /// The file is cut to this length, or filled up to it with zeros.
    pub length: Option<usize>,
}

impl Draft {
    /// A draft whose header tells the truth about its reads and its index.
    pub fn new(flows: u16, key_length: u16, reads: Vec<Read>, index: Option<Index>) -> Draft {
        let letter_count = usize::from(flows) + usize::from(key_length);
        let header_padding = padding(FIXED_HEADER + letter_count);
        let header_length = FIXED_HEADER + letter_count + header_padding.len();
        let mut draft = Draft {
            mark: *b".sff",
            version: [0, 0, 0, 1],
            index_offset: 0,
            index_length: index.as_ref().map_or(0, |index| index.length),
            read_count: reads.len() as u32,
            header_length: header_length as u16,
            key_length,
            flows,
            code: 1,
            letters: b"TACG".iter().copied().cycle().take(letter_count).collect(),
            header_padding,
            reads,
            index,
            tail: Vec::new(),
            length: None,
        };
        draft.index_offset = draft.layout().index.unwrap_or(0) as u64;
        draft
    }

    fn header_bytes(&self) -> Vec<u8> {
        [
            &self.mark[..],
            &self.version,
            &self.index_offset.to_be_bytes(),
            &self.index_length.to_be_bytes(),
            &self.read_count.to_be_bytes(),
            &self.header_length.to_be_bytes(),
            &self.key_length.to_be_bytes(),
            &self.flows.to_be_bytes(),
            &[self.code],
            &self.letters,
            &self.header_padding,
        ]
        .concat()
    }

    // The file without its tail, and where its parts stand in it.
    fn written(&self) -> (Vec<u8>, Layout) {
        let mut bytes = self.header_bytes();
        let header_end = bytes.len();
        let mut index_place = None;
        let mut places = Vec::new();
        for behind in 0..=self.reads.len() {
            if let Some(index) = self.index.as_ref().filter(|index| index.behind == behind) {
                index_place = Some(bytes.len());
                bytes.extend(&index.bytes);
            }
            if let Some(read) = self.reads.get(behind) {
                places.push(bytes.len());
                bytes.extend(read.bytes());
            }
        }
        let layout = Layout {
            header_end,
            reads: places,
            index: index_place,
            end: bytes.len(),
        };
        (bytes, layout)
    }

    pub fn layout(&self) -> Layout {
        self.written().1
    }

    pub fn bytes(&self) -> Vec<u8> {
        let mut bytes = self.written().0;
        bytes.extend(&self.tail);
        if let Some(length) = self.length {
            bytes.resize(length, 0);
        }
        bytes
    }
}

impl format::Draft for Draft {
    fn bytes(&self) -> Vec<u8> {
        Draft::bytes(self)
    }

    fn verdict(&self) -> Verdict {
        let extent = self.layout().end;
        Verdict::whole(extent, self.bytes().len() - extent)
    }

    // With the reads' flow steps.
    fn fields(&self) -> Vec<Range<usize>> {
        let mut fields = Vec::new();
        fields.push(0..FIXED_HEADER);
        for (place, read) in self.layout().reads.into_iter().zip(&self.reads) {
            fields.push(place..place + FIXED_READ_HEADER);
            let steps = place + read.name_end() + read.flow_values.len();
            if !read.steps.is_empty() {
                fields.push(steps..steps + read.steps.len());
            }
        }
        fields
    }
}
