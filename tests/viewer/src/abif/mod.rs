//! Pictures of ABIF files.

mod axes;
mod called;
pub mod check;
pub mod checked;
pub mod contents;
pub mod files;
pub mod guessed;
mod letters;
mod lines;
pub mod listed;
mod range;
mod scale;
pub mod tagged;
mod told;

pub use letters::shows;
