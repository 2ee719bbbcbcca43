//! A lent output that shows every byte that a call wrote.

const GUARD: usize = 32;

/// Bytes that are nowhere zero and differ from place to place, with a guard behind the room.
#[derive(Clone, PartialEq, Eq)]
pub struct Output {
    bytes: Vec<u8>,
    room: usize,
}

impl Output {
    pub fn new(room: usize) -> Output {
        Output {
            bytes: (0..room + GUARD).map(pattern).collect(),
            room,
        }
    }

    /// What a call is lent.
    pub fn lent(&mut self) -> &mut [u8] {
        &mut self.bytes[..self.room]
    }

    pub fn room(&self) -> usize {
        self.room
    }

    /// The room's bytes as they are now, and the guard's.
    pub fn bytes(&self) -> &[u8] {
        &self.bytes
    }

    /// Whether no byte from this place on was written, the guard's included.
    pub fn is_untouched_from(&self, place: usize) -> bool {
        let bytes = self.bytes.iter().enumerate().skip(place);
        bytes.into_iter().all(|(at, &byte)| byte == pattern(at))
    }

    /// The first place where the two differ.
    pub fn difference(&self, other: &Output) -> Option<usize> {
        let mut pairs = self.bytes.iter().zip(&other.bytes);
        pairs.position(|(one, another)| one != another)
    }
}

fn pattern(place: usize) -> u8 {
    (place % 251 + 3) as u8
}
