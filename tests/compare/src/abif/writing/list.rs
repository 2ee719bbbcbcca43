//! Items to be written, with every field open to change.

use crate::abif::generate::Content;
use crate::abif::reader::Tag;
use crate::abif::writer::{element_size, Lent};

/// The lists and the buffer that a call is lent.
#[derive(Clone, Debug, Default, PartialEq, Eq)]
pub struct List {
    pub names: Vec<u32>,
    pub numbers: Vec<i32>,
    pub types: Vec<i16>,
    pub counts: Vec<u32>,
    pub starts: Vec<u64>,
    pub lengths: Vec<u64>,
    pub data: Vec<u8>,
}

impl List {
    /// These items, with their data back to back in the buffer.
    pub fn of(items: &[(Tag, Content)]) -> List {
        let mut list = List::default();
        for (tag, content) in items {
            let start = list.data.len() as u64;
            list.data.extend(&content.data);
            list.push(*tag, content, start);
        }
        list
    }

    /// Items of one name, numbered from one.
    pub fn numbered(contents: Vec<Content>) -> List {
        let tags = (1..).map(|number| Tag::new(b"ABCD", number));
        let items: Vec<(Tag, Content)> = tags.zip(contents).collect();
        List::of(&items)
    }

    /// Adds an item whose data stand in the buffer already.
    pub fn push(&mut self, tag: Tag, content: &Content, start: u64) {
        self.names.push(tag.name);
        self.numbers.push(tag.number);
        self.types.push(content.type_code);
        self.counts.push(content.count as u32);
        self.starts.push(start);
        self.lengths.push(content.data.len() as u64);
    }

    pub fn count(&self) -> usize {
        self.names.len()
    }

    pub fn tag(&self, index: usize) -> Tag {
        Tag {
            name: self.names[index],
            number: self.numbers[index],
        }
    }

    pub fn set_tag(&mut self, index: usize, tag: Tag) {
        self.names[index] = tag.name;
        self.numbers[index] = tag.number;
    }

    pub fn lent(&self) -> Lent<'_> {
        Lent {
            names: &self.names,
            numbers: &self.numbers,
            types: &self.types,
            counts: &self.counts,
            starts: &self.starts,
            lengths: &self.lengths,
            data: &self.data,
        }
    }

    /// The items of a list whose parts all lie inside the buffer.
    pub fn items(&self) -> Vec<(Tag, Content)> {
        (0..self.count())
            .map(|index| (self.tag(index), self.content(index)))
            .collect()
    }

    fn content(&self, index: usize) -> Content {
        let start = self.starts[index] as usize;
        let type_code = self.types[index];
        Content {
            type_code,
            element_size: element_size(type_code).unwrap_or(1) as i16,
            count: self.counts[index] as i32,
            data: self.data[start..][..self.lengths[index] as usize].to_vec(),
        }
    }

    /// The length of the file that an accepted list gives.
    pub fn file_length(&self) -> usize {
        let apart = self.lengths.iter().filter(|&&length| length > 4);
        let data: u64 = apart.sum();
        128 + data as usize + 28 * self.count()
    }
}
