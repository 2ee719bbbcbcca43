//! Pictures that are interrupted while they are drawn.

use crate::abif::files::shorts;
use crate::drawing::{draw, Paper, Wish, PLAIN};
use crate::program::Program;
use crate::scratch::Scratch;
use compare::abif::generate::{plain_file, Order};
use compare::abif::reader::Tag;
use compare::report::Group;
use std::fs::{self, OpenOptions};
use std::path::{Path, PathBuf};
use std::process::{Command, Stdio};
use std::thread::sleep;
use std::time::Duration;

/// So many, in rows so long, that drawing them takes some tenths of a second.
const POINTS: i32 = 400_000_000;
const POINTS_IN_A_ROW: &str = "2000000";

pub fn interrupted(group: &mut Group) {
    for wait in [5, 20, 40, 60, 80, 100, 120] {
        group.input();
        for wish in [PLAIN, Wish::pages(Paper::A4)] {
            check(group, wish, Duration::from_millis(wait));
        }
    }
}

// The older picture is still there, whole, and no piece of the new one.
fn check(group: &mut Group, wish: Wish, wait: Duration) {
    let scratch = Scratch::new();
    let name = format!("picture.{}", wish.ending());
    let picture = scratch.path(&name);
    let sample = Path::new("samples/run.ab1");
    let older = draw(&Program::plain(), sample, &picture, wish);
    group.check(older.picture.is_some(), &[], || format!("{older:?}"));
    let file = long_run(&scratch);
    let mut command = Command::new(Program::plain().path());
    command.args(wish.arguments(&file, &picture));
    command.args(["--points", POINTS_IN_A_ROW]);
    let mut child = command
        .stdout(Stdio::null())
        .spawn()
        .expect("the viewer starts");
    sleep(wait);
    let id = child.id().to_string();
    let sent = Command::new("kill").arg("-TERM").arg(id).status();
    let status = child.wait().expect("the viewer ends");
    let sent = sent.is_ok_and(|sent| sent.success());
    group.check(sent && status.code().is_none(), &[], || {
        format!("after {wait:?} the viewer ended with {status}")
    });
    let names = names_beside(&picture);
    group.check(names == [&name, "run.ab1"], &[], || {
        format!("after {wait:?} there are {names:?}")
    });
    let kept = fs::read(&picture).ok();
    group.check(kept == older.picture, &[], || {
        let length = kept.map(|kept| kept.len());
        format!("after {wait:?} the older picture has {length:?} bytes")
    });
}

// A channel of zeros, which take no room on the disk.
fn long_run(scratch: &Scratch) -> PathBuf {
    let items = [(Tag::new(b"DATA", 9), shorts([0; 4]))];
    let mut draft = plain_file(&items, Order::DirectoryFirst);
    draft.entries[0].count = POINTS;
    draft.entries[0].data_size = 2 * POINTS;
    let file = scratch.write("run.ab1", &draft.bytes());
    let length = draft.entries[0].offset() as u64 + 2 * POINTS as u64;
    let opened = OpenOptions::new().write(true).open(&file);
    opened
        .and_then(|opened| opened.set_len(length))
        .expect("a long file can be made");
    file
}

fn names_beside(file: &Path) -> Vec<String> {
    let folder = file.parent().expect("the picture stands in a folder");
    let entries = fs::read_dir(folder).expect("the folder can be read");
    let mut names: Vec<String> = entries
        .flatten()
        .map(|entry| entry.file_name().to_string_lossy().into_owned())
        .collect();
    names.sort();
    names
}
