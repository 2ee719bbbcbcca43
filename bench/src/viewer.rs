//! The viewer's commands against a command that only reads the file, and against reading it within a program.

use crate::timing::medians;
use compare::abif::run::run_of;
use std::path::{Path, PathBuf};
use std::process::{Command, Stdio};
use std::{env, fs};

const ROUNDS: usize = 301;
/// So many that the file has some 300,000 bytes.
const BASES: usize = 1480;

pub fn commands() {
    let folder = env::temp_dir().join(format!("bench-viewer-{}", std::process::id()));
    fs::create_dir(&folder).expect("the temporary folder can be written");
    let file = folder.join("run.ab1");
    let bytes = run_of(BASES).bytes();
    fs::write(&file, &bytes).expect("the run can be stored");
    report(&file, &folder.join("run.svg"), bytes.len());
    fs::remove_dir_all(&folder).expect("the temporary folder can be removed");
}

fn report(file: &Path, picture: &Path, length: usize) {
    let [within, cat, judge, draw] = medians(
        ROUNDS,
        1,
        [
            &mut || drop(fs::read(file)),
            &mut || run(Command::new("cat").arg(file)),
            &mut || run(Command::new(viewer()).arg(file)),
            &mut || {
                run(Command::new(viewer())
                    .arg("draw")
                    .arg(file)
                    .arg("-o")
                    .arg(picture))
            },
        ],
    );
    println!("reading a file of {length} bytes: within a program {within:.0} µs, cat {cat:.0} µs");
    println!(
        "jtview FILE: {judge:.0} µs, to cat {:.2}; jtview draw: {draw:.0} µs, to cat {:.2}",
        judge / cat,
        draw / cat
    );
}

fn viewer() -> PathBuf {
    Path::new(env!("CARGO_MANIFEST_DIR")).join("../target/viewer/jtview")
}

fn run(command: &mut Command) {
    let status = command.stdout(Stdio::null()).status();
    assert!(status.is_ok_and(|status| status.success()));
}
