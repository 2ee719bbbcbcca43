//! What drafts of files share.

/// Writes as much as lies inside the file.
pub fn write_over(bytes: &mut [u8], at: usize, part: &[u8]) {
    for (slot, byte) in bytes.iter_mut().skip(at).zip(part) {
        *slot = *byte;
    }
}
