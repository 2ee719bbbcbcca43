//! The stored files, each with the lines that the program prints for it.

use crate::{abif, gtc, program, sff};
use std::path::Path;
use std::{fs, io};

/// The file's name and its bytes.
pub type Sample = (&'static str, Vec<u8>);

pub fn all() -> Vec<Sample> {
    let mut samples = abif::samples::all();
    samples.extend(sff::samples::all());
    samples.extend(gtc::samples::all());
    samples.extend([
        ("empty.txt", Vec::new()),
        ("not-a-file-we-know.txt", b"Nothing we read.\n".to_vec()),
        ("three-letters-of-the-mark.txt", b"ABI".to_vec()),
    ]);
    samples
}

/// The beginning of a file.
pub fn cut(mut bytes: Vec<u8>, length: usize) -> Vec<u8> {
    bytes.truncate(length);
    bytes
}

/// Writes all samples and their lines into the folder.
pub fn store(folder: &Path) -> io::Result<()> {
    for (name, bytes) in all() {
        fs::write(folder.join(name), &bytes)?;
        fs::write(folder.join(format!("{name}.lines")), program::lines(&bytes))?;
    }
    Ok(())
}
