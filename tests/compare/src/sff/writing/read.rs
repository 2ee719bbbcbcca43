//! A read to be written, with every list and clip open to change.

use crate::sff::draft;
use crate::sff::writer::LentRead;

#[derive(Clone, Debug, PartialEq, Eq)]
pub struct Read {
    pub name: Vec<u8>,
    pub flows: Vec<u16>,
    pub steps: Vec<u8>,
    pub letters: Vec<u8>,
    pub qualities: Vec<u8>,
    pub clips: [u64; 4],
}

impl Read {
    /// A read of so many flows, with a base for each step and no clips.
    pub fn new(name: &[u8], flows: usize, steps: &[u8]) -> Read {
        let bases = steps.len();
        Read {
            name: name.to_vec(),
            flows: (0..flows).map(|flow| (flow * 257 + 3) as u16).collect(),
            steps: steps.to_vec(),
            letters: b"TACG".iter().copied().cycle().take(bases).collect(),
            qualities: (1..=40).cycle().take(bases).collect(),
            clips: [0; 4],
        }
    }

    pub fn lent(&self) -> LentRead<'_> {
        LentRead {
            name: &self.name,
            flows: &self.flows,
            steps: &self.steps,
            letters: &self.letters,
            qualities: &self.qualities,
            clips: self.clips,
        }
    }

    /// The same read as part of a file; its lengths and clips fit their fields.
    pub fn draft(&self) -> draft::Read {
        let mut read = draft::Read::new(&self.name, 0, &self.steps);
        read.clips = self.clips.map(|clip| clip as u16);
        read.flow_values = self
            .flows
            .iter()
            .flat_map(|flow| flow.to_be_bytes())
            .collect();
        read.letters = self.letters.clone();
        read.qualities = self.qualities.clone();
        read.padding = draft::padding(2 * self.flows.len() + 3 * self.steps.len());
        read
    }

    /// How many bytes the read takes in a file.
    pub fn size(&self) -> usize {
        let header = 16 + self.name.len();
        let data = 2 * self.flows.len() + 3 * self.letters.len();
        header.next_multiple_of(8) + data.next_multiple_of(8)
    }
}
