//! Pictures of SFF files.

pub mod check;
pub mod files;
pub mod listed;
