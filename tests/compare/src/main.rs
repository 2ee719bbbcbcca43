//! Runs all test groups, or those whose names begin so: `compare groups BEGINNING`; stores the sample
//! files: `compare samples FOLDER`; or reads the printed tables of tags again: `compare tables FILE`.

use compare::abif::tags::printed;
use compare::groups;
use compare::report::run_groups;
use compare::samples;
use std::path::Path;
use std::process::ExitCode;
use std::{env, fs};

fn main() -> ExitCode {
    let arguments: Vec<String> = env::args().skip(1).collect();
    match arguments.as_slice() {
        [] => run_groups(&groups::all(), ""),
        [command, beginning] if command == "groups" => run_groups(&groups::all(), beginning),
        [command, folder] if command == "samples" => store_samples(Path::new(folder)),
        [command, file] if command == "tables" => compare_tables(Path::new(file)),
        _ => {
            eprintln!("usage: compare [groups BEGINNING | samples FOLDER | tables FILE]");
            ExitCode::from(2)
        }
    }
}

fn store_samples(folder: &Path) -> ExitCode {
    match samples::store(folder) {
        Ok(()) => ExitCode::SUCCESS,
        Err(error) => {
            eprintln!("{}: {error}", folder.display());
            ExitCode::FAILURE
        }
    }
}

fn compare_tables(file: &Path) -> ExitCode {
    match fs::read_to_string(file) {
        Ok(text) if printed::compare(&text) => ExitCode::SUCCESS,
        Ok(_) => ExitCode::FAILURE,
        Err(error) => {
            eprintln!("{}: {error}", file.display());
            ExitCode::FAILURE
        }
    }
}
