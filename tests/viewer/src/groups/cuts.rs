//! Every beginning of small files, drawn and checked.

use crate::drawing::{check_all, Input, Wish, PLAIN};
use crate::{abif, gtc, sff};
use compare::report::Group;

pub fn abif(group: &mut Group) {
    let runs = abif::files::runs();
    check_all(group, &cuts(&runs), PLAIN);
    check_all(group, &cuts(&runs[..2]), Wish::raw());
}

pub fn sff(group: &mut Group) {
    let runs = cuts(&sff::files::runs());
    check_all(group, &runs, PLAIN);
    check_all(group, &runs, Wish::read(3));
}

pub fn gtc(group: &mut Group) {
    check_all(group, &cuts(&gtc::files::files()), PLAIN);
}

/// Every beginning of each file.
pub fn cuts(files: &[Vec<u8>]) -> Vec<Input> {
    let mut inputs = Vec::new();
    for (index, file) in files.iter().enumerate() {
        for length in 0..=file.len() {
            let name = format!("file {index} cut to {length} of {}", file.len());
            inputs.push(Input::new(name, file[..length].to_vec()));
        }
    }
    inputs
}
