//! The built program's standard output.

use super::tails;
use crate::abif::{self, Abif};
use crate::damage::{random_byte_changes, random_changes};
use crate::format::{Draft, Format};
use crate::gtc::Gtc;
use crate::program;
use crate::random::Random;
use crate::report::Group;
use crate::samples;
use crate::sff::Sff;
use std::io::{self, Write};
use std::os::fd::OwnedFd;
use std::os::unix::net::UnixDatagram;
use std::path::{Path, PathBuf};
use std::process::{Command, Stdio};
use std::time::Duration;
use std::{env, fs, thread};

const LONGEST_INPUT: usize = 65_536;
const GENERATED: usize = 60;

pub fn lines(group: &mut Group) {
    let Some(program) = built_program(group) else {
        return;
    };
    stored_samples(group, &program);
    for input in generated_inputs() {
        compare_lines(group, &program, &input, input.len());
    }
    in_two_pieces(group, &program);
}

/// Each piece of a line is a write by itself, so that what a full pipe keeps ends between two.
pub fn writes(group: &mut Group) {
    let Some(program) = built_program(group) else {
        return;
    };
    let stored = samples::all().into_iter().map(|(_, bytes)| bytes);
    let made = at_the_limit()
        .into_iter()
        .chain(generated_files::<Abif>(99));
    for input in stored.chain(made) {
        compare_writes(group, &program, &input);
    }
}

fn built_program(group: &mut Group) -> Option<PathBuf> {
    let program = program_path();
    if program.is_file() {
        return Some(program);
    }
    let message = || format!("no program at {}", program.display());
    group.check(false, &[], message);
    None
}

// A read of standard input may hand out less than the whole file.
fn in_two_pieces(group: &mut Group, program: &Path) {
    for file in [Abif::sample(), Sff::sample(), Gtc::sample()] {
        for length in [file.len(), LONGEST_INPUT, LONGEST_INPUT + 1] {
            let mut input = file.clone();
            input.resize(length, 0);
            for first in [0, 2, 3, 4, 50, length - 1] {
                compare_lines(group, program, &input, first);
            }
        }
    }
}

fn program_path() -> PathBuf {
    match env::var_os("INSPECT") {
        Some(path) => PathBuf::from(path),
        None => Path::new(env!("CARGO_MANIFEST_DIR")).join("../../target/bin/inspect"),
    }
}

// Compares with the stored lines too, and sees that the stored files are those made here.
fn stored_samples(group: &mut Group, program: &Path) {
    let folder = Path::new(env!("CARGO_MANIFEST_DIR")).join("../../samples");
    for (name, bytes) in samples::all() {
        let stored = fs::read(folder.join(name)).ok();
        group.check(stored.as_deref() == Some(&bytes), &bytes, || {
            format!("the stored sample {name} is missing or is another file")
        });
        let lines = fs::read(folder.join(format!("{name}.lines"))).ok();
        let printed = run(program, &bytes, bytes.len()).ok();
        group.check(printed.is_some() && printed == lines, &bytes, || {
            format!("{name}: printed {printed:?}, stored {lines:?}")
        });
        compare_lines(group, program, &bytes, bytes.len());
    }
}

fn generated_inputs() -> Vec<Vec<u8>> {
    let mut inputs = at_the_limit();
    for file in [Abif::sample(), Sff::sample(), Gtc::sample()] {
        inputs.extend(tails::LENGTHS.map(|length| [&file[..], &vec![b'x'; length]].concat()));
    }
    inputs.extend(generated_files::<Abif>(999));
    inputs.extend(generated_files::<Sff>(500));
    inputs.extend(generated_files::<Gtc>(999));
    let abif = ["A", "AB", "ABI", "ABIG", "abif", "FIBA", "\0ABIF"];
    let sff = [".", ".s", ".sf", ".sfg", ".SFF", "ffs.", "\0.sff", "sff"];
    let gtc = [
        "g", "gt", "gtc", "gtc\x05", "gtd", "GTC", "gTc", "ctg", "\0gtc", "tc",
    ];
    let marks = ["", " "].into_iter().chain(abif).chain(sff).chain(gtc);
    for mark in marks {
        inputs.push(mark.into());
        inputs.push(format!("{mark}{}", "x".repeat(200)).into());
    }
    inputs
}

fn generated_files<F: Format>(most: usize) -> Vec<Vec<u8>> {
    let mut random = Random::new(41);
    let mut files = vec![F::long_file(&mut random, most).bytes()];
    for _ in 0..GENERATED {
        files.push(F::random_file(&mut random, 12).bytes());
        files.push(random_changes::<F>(&mut random).bytes());
        files.push(random_byte_changes::<F>(&mut random));
    }
    files
}

// Whole files, an unknown one and one of zeros, at and around the longest that the program takes.
fn at_the_limit() -> Vec<Vec<u8>> {
    let mut inputs = Vec::new();
    for length in [LONGEST_INPUT - 1, LONGEST_INPUT, LONGEST_INPUT + 1, 200_000] {
        let offset = abif::samples::one_item_at_an_offset();
        for mut whole in [offset, Sff::sample(), Gtc::sample()] {
            whole.resize(length, b'x');
            inputs.push(whole);
        }
        inputs.push(vec![b'x'; length]);
        inputs.push(vec![0; length]);
    }
    inputs
}

fn compare_lines(group: &mut Group, program: &Path, input: &[u8], first: usize) {
    group.input();
    let expected = program::lines(input);
    let printed = run(program, input, first);
    let same = matches!(&printed, Ok(printed) if *printed == expected.as_bytes());
    group.check(same, input, || match printed {
        Ok(printed) => format!("printed {:?}, expected {expected:?}", text(&printed)),
        Err(error) => format!("the program did not run: {error}"),
    });
}

fn text(printed: &[u8]) -> String {
    String::from_utf8_lossy(printed).into_owned()
}

// Feeds `first` bytes and, after a pause, the rest.
fn run(program: &Path, input: &[u8], first: usize) -> io::Result<Vec<u8>> {
    let mut child = Command::new(program)
        .stdin(Stdio::piped())
        .stdout(Stdio::piped())
        .spawn()?;
    let mut pipe = child.stdin.take().expect("the standard input is piped");
    let output = thread::scope(|scope| {
        scope.spawn(move || {
            // A program may stop reading what is too long, so a closed pipe is no fault.
            let _ = pipe.write_all(&input[..first]);
            if first < input.len() {
                thread::sleep(Duration::from_millis(5));
                let _ = pipe.write_all(&input[first..]);
            }
        });
        child.wait_with_output()
    })?;
    if output.status.success() {
        Ok(output.stdout)
    } else {
        Err(io::Error::other(output.status.to_string()))
    }
}

fn compare_writes(group: &mut Group, program: &Path, input: &[u8]) {
    group.input();
    let expected = program::pieces(input);
    let written = run_by_writes(program, input);
    let same = matches!(&written, Ok(written) if *written == expected);
    group.check(same, input, || match written {
        Ok(written) => format!("wrote {written:?}, expected {expected:?}"),
        Err(error) => format!("the program did not run: {error}"),
    });
}

// The program's output is a socket that keeps each write apart.
fn run_by_writes(program: &Path, input: &[u8]) -> io::Result<Vec<String>> {
    let (ours, theirs) = UnixDatagram::pair()?;
    ours.set_read_timeout(Some(Duration::from_millis(2)))?;
    let mut child = Command::new(program)
        .stdin(Stdio::piped())
        .stdout(OwnedFd::from(theirs))
        .spawn()?;
    let mut pipe = child.stdin.take().expect("the standard input is piped");
    thread::scope(|scope| {
        // A program may stop reading what is too long, so a closed pipe is no fault.
        scope.spawn(move || pipe.write_all(input));
        let mut written = Vec::new();
        while child.try_wait()?.is_none() {
            receive(&ours, &mut written);
        }
        receive(&ours, &mut written);
        Ok(written)
    })
}

// What has been written, until nothing comes for a moment.
fn receive(socket: &UnixDatagram, written: &mut Vec<String>) {
    let mut buffer = [0; 4096];
    while let Ok(length) = socket.recv(&mut buffer) {
        written.push(text(&buffer[..length]));
    }
}
