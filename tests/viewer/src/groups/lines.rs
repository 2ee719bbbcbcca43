//! The lines of files that are judged by name.

use crate::program::{lines_begin, output, repository, Output, Program};
use crate::scratch::Scratch;
use crate::verdict;
use compare::groups::tails::LENGTHS;
use compare::report::Group;
use compare::samples::{self, Sample};
use std::ffi::OsString;
use std::os::unix::ffi::OsStringExt;
use std::process::Command;

const LONG: usize = 70_000;
const SECONDS_FOR_A_PIPE: &str = "10";

pub fn lines(group: &mut Group) {
    let samples = samples::all();
    for (name, bytes) in &samples {
        one_file(group, name, bytes);
    }
    all_at_once(group, &samples);
    long_files(group);
    strange_names(group);
    missing_file(group);
    pipe(group);
}

fn one_file(group: &mut Group, name: &str, bytes: &[u8]) {
    let path = format!("samples/{name}");
    let expected = text(&verdict::lines(path.as_bytes(), bytes));
    let status = i32::from(!verdict::is_whole(bytes));
    let output = Program::plain().run(&[&path]);
    expect(group, bytes, &output, &expected, status);
}

fn all_at_once(group: &mut Group, samples: &[Sample]) {
    let paths: Vec<String> = samples
        .iter()
        .map(|it| format!("samples/{}", it.0))
        .collect();
    let output = Program::plain().run(&paths);
    expect(group, &[], &output, &text(&all_lines(&paths, samples)), 1);
    let whole = ["samples/run.ab1", "samples/run.sff", "samples/run.gtc"];
    let output = Program::plain().run(&whole);
    group.check(output.status == Some(0), &[], || {
        format!("whole files: {output:?}")
    });
}

fn all_lines(paths: &[String], samples: &[Sample]) -> Vec<u8> {
    let lines = paths.iter().zip(samples);
    let lines = lines.map(|(path, sample)| verdict::lines(path.as_bytes(), &sample.1));
    lines.collect::<Vec<Vec<u8>>>().concat()
}

// The program behind the stored lines refuses the longest of these, but the viewer has no such limit.
fn long_files(group: &mut Group) {
    let scratch = Scratch::new();
    for (name, bytes) in samples::all() {
        for more in LENGTHS.into_iter().chain([LONG]) {
            let bytes = [&bytes[..], &vec![0; more]].concat();
            let path = scratch.write(name, &bytes);
            let path = path.to_string_lossy().into_owned();
            let expected = text(&verdict::lines(path.as_bytes(), &bytes));
            let status = i32::from(!verdict::is_whole(&bytes));
            let output = Program::plain().run(&[&path]);
            expect(group, &bytes, &output, &expected, status);
        }
    }
}

fn strange_names(group: &mut Group) {
    let scratch = Scratch::new();
    let bytes = compare::abif::samples::one_inline_item();
    for name in [
        &b"a\nb"[..],
        b"\x1B[2J",
        b"\x7F\x01\x1F ",
        b"\xFF\xC3",
        b"<&\"'>",
    ] {
        let path = scratch.write(OsString::from_vec(name.to_vec()), &bytes);
        let expected = verdict::lines(path.clone().into_os_string().as_encoded_bytes(), &bytes);
        let output = Program::plain().run(&[path]);
        group.input();
        group.check(output.stdout == expected, name, || {
            format!("printed {:?}", output.stdout_text())
        });
    }
}

// The other files' lines are there all the same.
fn missing_file(group: &mut Group) {
    let paths = [
        "samples/run.ab1",
        "samples/no such file",
        "samples/cut-run.sff",
    ];
    let output = Program::plain().run(&paths);
    group.input();
    check_other_lines(group, &output);
    let complaint = output.stderr_text();
    let names_it = complaint.starts_with("jtview: samples/no such file: ");
    group.check(names_it && complaint.lines().count() == 1, &[], || {
        format!("complained {complaint:?}")
    });
}

// A pipe that nobody writes to must not be waited for.
fn pipe(group: &mut Group) {
    let scratch = Scratch::new();
    let path = scratch.path("pipe");
    let made = Command::new("mkfifo").arg(&path).status();
    group.check(made.is_ok_and(|made| made.success()), &[], || {
        "no pipe".to_string()
    });
    let mut command = Command::new("timeout");
    command.current_dir(repository()).arg(SECONDS_FOR_A_PIPE);
    command.arg(Program::plain().path());
    command
        .arg("samples/run.ab1")
        .arg(&path)
        .arg("samples/cut-run.sff");
    group.input();
    match output(command) {
        Ok(output) => {
            check_other_lines(group, &output);
            let complaint = output.stderr_text();
            let start = format!("jtview: {}: ", path.display());
            group.check(complaint.starts_with(&start), &[], || {
                format!("complained {complaint:?}")
            });
        }
        Err(error) => group.check(false, &[], || error.to_string()),
    }
}

fn check_other_lines(group: &mut Group, output: &Output) {
    let lines = output.stdout_text();
    let starts = [
        "samples/run.ab1: ABIF whole ",
        "samples/cut-run.sff: SFF refused 1 at 3",
        "  NOT COMPLETE: this file ends inside read 3 of 3, ",
    ];
    let fits = lines_begin(&lines, &starts);
    group.check(fits && output.status == Some(2), &[], || {
        format!("{output:?}")
    });
}

fn text(bytes: &[u8]) -> String {
    String::from_utf8_lossy(bytes).into_owned()
}

fn expect(group: &mut Group, bytes: &[u8], output: &Output, lines: &str, status: i32) {
    group.input();
    let printed = output.stdout_text();
    group.check(printed == lines, bytes, || {
        format!("printed {printed:?}, expected {lines:?}")
    });
    group.check(output.status == Some(status), bytes, || {
        format!("status {:?}, expected {status}", output.status)
    });
    group.check(output.stderr.is_empty(), bytes, || {
        format!("complained {:?}", output.stderr_text())
    });
}
