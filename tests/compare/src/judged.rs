//! What judging finds of a whole file.

#[derive(Clone, Copy, Debug, PartialEq, Eq)]
pub struct Judged {
    pub extent: usize,
    /// The entries that are not judged, which only a GTC file can have.
    pub unjudged: usize,
    /// The bytes after the extent.
    pub tail: usize,
}

impl Judged {
    /// Of these bytes, all entries being judged.
    pub fn up_to(extent: usize, bytes: &[u8]) -> Judged {
        Judged {
            extent,
            unjudged: 0,
            tail: bytes[extent..].len(),
        }
    }
}
