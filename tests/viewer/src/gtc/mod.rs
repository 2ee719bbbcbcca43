//! Pictures of GTC files.

pub mod check;
pub mod files;
pub mod listed;
mod places;
pub mod refusals;
