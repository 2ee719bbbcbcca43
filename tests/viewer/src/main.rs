//! Runs all test groups of the viewer, or those whose names begin so: `viewer groups BEGINNING`; or
//! stores its outputs anew: `viewer store`.

mod abif;
mod apart;
mod banner;
mod drawing;
mod findings;
mod groups;
mod gtc;
mod page;
mod picture;
mod printer;
mod program;
mod scratch;
mod screen;
mod sentences;
mod sff;
mod sheet;
mod style;
mod verdict;
mod words;
mod workers;
mod xml;

use compare::report::run_groups;
use program::Program;
use std::env;
use std::process::ExitCode;

fn main() -> ExitCode {
    let arguments: Vec<String> = env::args().skip(1).collect();
    let program = Program::plain();
    if !program.is_there() {
        eprintln!("no viewer at {}", program.path().display());
        return ExitCode::from(2);
    }
    match arguments.as_slice() {
        [] => run_groups(&groups::ALL, ""),
        [command, beginning] if command == "groups" => run_groups(&groups::ALL, beginning),
        [command] if command == "store" => store(),
        _ => {
            eprintln!("usage: viewer [groups BEGINNING | store]");
            ExitCode::from(2)
        }
    }
}

fn store() -> ExitCode {
    match groups::stored::store() {
        Ok(()) => ExitCode::SUCCESS,
        Err(error) => {
            eprintln!("{error}");
            ExitCode::FAILURE
        }
    }
}
