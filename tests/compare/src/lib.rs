//! Compares the library's C functions with readers and writers of its own.

pub mod abif;
pub mod answers;
pub mod arguments;
pub mod big_endian;
pub mod damage;
pub mod draft;
pub mod floats;
pub mod format;
pub mod groups;
pub mod gtc;
pub mod judged;
pub mod little_endian;
pub mod output;
pub mod program;
pub mod random;
pub mod refusal;
pub mod report;
pub mod samples;
pub mod sff;
pub mod tally;
