//! Checks the list of calls against the sources: `calls [ROOT]`.

mod functions;
mod header;
mod origins;
mod report;
mod rules;
mod self_checks;
mod sources;
mod specs;
mod words;

use report::Report;
use sources::Sources;
use std::env;
use std::path::PathBuf;
use std::process::ExitCode;

fn main() -> ExitCode {
    let default = || PathBuf::from(env!("CARGO_MANIFEST_DIR")).join("../..");
    let root = env::args_os().nth(1).map_or_else(default, PathBuf::from);
    let mut report = Report::default();
    self_checks::run(&mut report);
    match Sources::load(&root) {
        Ok(sources) => report.add(rules::check(&sources)),
        Err(error) => report.failures.push(format!("{}: {error}", root.display())),
    }
    for failure in &report.failures {
        println!("{failure}");
    }
    println!("{} passed, {} failed", report.passed, report.failures.len());
    match report.failures.is_empty() {
        true => ExitCode::SUCCESS,
        false => ExitCode::FAILURE,
    }
}
