//! Tags against the printed tables of instruments and software.

pub mod added_tags;
pub mod changed_rows;
pub mod check;
pub mod cuts;
mod expected;
pub mod files;
pub mod own_rows;
pub mod printed;
pub mod profiles;
pub mod random_files;
pub mod refusals;
pub mod row;
pub mod samples;
pub mod tables;
