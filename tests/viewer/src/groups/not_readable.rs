//! Files and folders that may not be read, and outputs that cannot be written.

use crate::program::{lines_begin, output, Program};
use crate::scratch::Scratch;
use compare::report::Group;
use compare::sff::draft::{Draft, Read};
use std::ffi::OsString;
use std::fs::{self, File, Permissions};
use std::os::unix::ffi::OsStrExt;
use std::os::unix::fs::PermissionsExt;
use std::path::Path;
use std::process::Command;

/// How the superuser, who may read everything, becomes nobody.
const AS_NOBODY: [&str; 6] = [
    "setpriv",
    "--reuid=65534",
    "--regid=65534",
    "--clear-groups",
    "--",
    "timeout",
];
const AS_IS: [&str; 1] = ["timeout"];
const SECONDS: &str = "10";

/// What is printed, to an output that takes nothing.
const FULL: [&[&str]; 7] = [
    &["a.sff"],
    &["list", "a.sff"],
    &["."],
    &["--help"],
    &["export", "a.sff", "--fasta"],
    &["export", "long.sff", "--fastq"],
    &["export", "a.sff", "--fasta", "-o", "/dev/full"],
];

/// What is longer than the files that may be written.
const UNFINISHED: [&str; 3] = [
    "draw a.sff -o new.svg",
    "draw a.sff -o new.html",
    "export long.sff --fasta -o new.fasta",
];

pub fn not_readable(group: &mut Group) {
    let scratch = Scratch::new();
    fill(&scratch);
    closed_to_the_program(group, &scratch);
    for arguments in FULL {
        full_output(group, scratch.folder(), arguments);
    }
    for arguments in UNFINISHED {
        unfinished_output(group, scratch.folder(), arguments);
    }
    let permissions = Permissions::from_mode(0o755);
    // The folder is removed with the others only where it may be read again.
    let _ = fs::set_permissions(scratch.path("closed"), permissions);
}

fn fill(scratch: &Scratch) {
    let bytes = compare::sff::samples::one_read();
    fs::create_dir(scratch.path("closed")).expect("a new folder");
    for name in ["a.sff", "b.sff", "closed/c.sff", "d.sff"] {
        scratch.write(name, &bytes);
    }
    let reads = vec![Read::new(b"read", 0, &[]); 100_000];
    scratch.write("long.sff", &Draft::new(0, 0, reads, None).bytes());
    for (name, mode) in [("b.sff", 0o000), ("closed", 0o000), ("", 0o755)] {
        let permissions = Permissions::from_mode(mode);
        fs::set_permissions(scratch.path(name), permissions).expect("other permissions");
    }
}

// The rest of the folder is judged, and both are counted.
fn closed_to_the_program(group: &mut Group, scratch: &Scratch) {
    let is_superuser = fs::read(scratch.path("b.sff")).is_ok();
    let before = if is_superuser { &AS_NOBODY[..] } else { &AS_IS };
    let mut command = Command::new(before[0]);
    command
        .current_dir(scratch.folder())
        .args(&before[1..])
        .arg(SECONDS);
    command
        .arg(Program::plain().path())
        .args(["a.sff", "closed", "."]);
    group.input();
    let Ok(output) = output(command) else {
        return group.check(false, &[], || "the program does not run".to_string());
    };
    let expected = "a.sff: SFF whole 88 of 88 tail 0\n\
                    ./a.sff: SFF whole 88 of 88 tail 0\n\
                    ./d.sff: SFF whole 88 of 88 tail 0\n\
                    ./long.sff: SFF whole 2400032 of 2400032 tail 0\n\
                    7 files: 4 whole, 0 refused, 0 unknown, 3 not readable\n";
    let printed = output.stdout_text();
    group.check(printed == expected, &[], || format!("printed {printed:?}"));
    group.check(output.status == Some(2), &[], || {
        format!("status {:?}", output.status)
    });
    let complaint = output.stderr_text();
    let starts = [
        "jtview: closed: ",
        "jtview: ./b.sff: ",
        "jtview: ./closed: ",
    ];
    let fits = lines_begin(&complaint, &starts);
    group.check(fits, &[], || format!("complained {complaint:?}"));
}

// An output that cannot be written to its end is no success, and is not left behind.
fn unfinished_output(group: &mut Group, folder: &Path, arguments: &str) {
    let mut command = Command::new("sh");
    command
        .current_dir(folder)
        .env("JTVIEW", Program::plain().path());
    let limited = format!("trap '' XFSZ; ulimit -f 1; exec \"$JTVIEW\" {arguments}");
    command.args(["-c", &limited]);
    group.input();
    let output = output(command);
    let is_refused = matches!(&output, Ok(output) if output.status == Some(2));
    group.check(is_refused, &[], || format!("{arguments}: {output:?}"));
    let told = output.map_or(String::new(), |output| output.stderr_text());
    group.check(
        told.starts_with("jtview: new.") && told.lines().count() == 1,
        &[],
        || format!("{arguments}: complained {told:?}"),
    );
    let entries = fs::read_dir(folder).expect("a folder of this test");
    let names = entries.flatten().map(|entry| entry.file_name());
    let left: Vec<OsString> = names
        .filter(|name| name.as_bytes().starts_with(b"new"))
        .collect();
    group.check(left.is_empty(), &[], || {
        format!("{arguments}: left {left:?}")
    });
}

// An output that is lost is no success.
fn full_output(group: &mut Group, folder: &Path, arguments: &[&str]) {
    let Ok(full) = File::options().write(true).open("/dev/full") else {
        return;
    };
    let status = Command::new(Program::plain().path())
        .current_dir(folder)
        .args(arguments)
        .stdout(full)
        .output()
        .map(|output| output.status.code());
    group.input();
    group.check(matches!(status, Ok(Some(2))), &[], || {
        format!("{arguments:?} with a full output: {status:?}")
    });
}
