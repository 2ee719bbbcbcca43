//! The test groups.

mod broken_pictures;
mod check;
mod colours;
mod cuts;
mod damaged;
mod dyes;
mod export;
mod folder;
mod interrupted;
mod lines;
mod list_and_show;
mod long_files;
mod memory;
mod not_readable;
mod options;
mod orders;
mod pages;
mod points;
mod printed;
mod rows;
mod sanitized;
pub mod stored;
mod tails;
mod terminal;
mod well_formed;

use compare::report::Run;

pub const ALL: [(&str, Run); 32] = [
    ("lines", lines::lines),
    ("folder", folder::folder),
    ("stored", stored::compare),
    ("options", options::options),
    ("not readable", not_readable::not_readable),
    ("interrupted", interrupted::interrupted),
    ("list and show", list_and_show::list_and_show),
    ("export", export::export),
    ("check", check::check),
    ("check of folders", check::table),
    ("terminal", terminal::terminal),
    ("rows", rows::rows),
    ("points", points::points),
    ("dyes", dyes::dyes),
    ("fragments", dyes::fragments),
    ("orders", orders::orders),
    ("long files", long_files::long_files),
    ("bytes behind the end", tails::tails),
    ("cuts ABIF", cuts::abif),
    ("cuts SFF", cuts::sff),
    ("cuts GTC", cuts::gtc),
    ("damaged ABIF", damaged::abif),
    ("damaged SFF", damaged::sff),
    ("damaged GTC", damaged::gtc),
    ("well-formed", well_formed::well_formed),
    ("broken pictures", broken_pictures::broken_pictures),
    ("pages", pages::pages),
    ("printed", printed::printed),
    ("labels", printed::labels),
    ("colours", colours::colours),
    ("memory", memory::memory),
    ("sanitized", sanitized::sanitized),
];
