//! What the viewer shows on a terminal while it works.

use crate::program::{output, Program};
use compare::report::Group;
use std::path::Path;
use std::process::Command;

/// Erases what stands from the cursor to the end of the line.
const ERASE: &str = "\x1B[K";

/// Runs the viewer with these words, as a shell takes them, on a terminal that gets its standard error:
/// it must tell how far it is, with this text, and leave the terminal as it was.
pub fn check_progress(group: &mut Group, folder: &Path, words: &str, told: &str) {
    let mut command = Command::new("script");
    command
        .current_dir(folder)
        .env("JTVIEW", Program::plain().path());
    command.args(["-qec", &format!("\"$JTVIEW\" {words}"), "/dev/null"]);
    group.input();
    let Ok(output) = output(command) else {
        return group.check(false, &[], || "no terminal".to_string());
    };
    let written = output.stdout_text();
    let is_told = written.contains('\r') && written.contains(told);
    group.check(is_told, &[], || format!("no progress: {written:?}"));
    let left = left_on_screen(&written);
    group.check(left.is_empty(), &[], || {
        format!("left {left:?} of {written:?}")
    });
}

// What a terminal shows after these letters, carriage returns and erasings.
fn left_on_screen(written: &str) -> String {
    let lines = written.split('\n').map(left_on_line);
    lines.collect::<String>().trim().to_string()
}

fn left_on_line(line: &str) -> String {
    let mut shown: Vec<char> = Vec::new();
    for piece in line.split('\r') {
        let mut cursor = 0;
        for (index, letters) in piece.split(ERASE).enumerate() {
            if index > 0 {
                shown.truncate(cursor);
            }
            let letters: Vec<char> = letters.chars().collect();
            let end = (cursor + letters.len()).min(shown.len());
            cursor += letters.len();
            shown.splice(cursor - letters.len()..end, letters);
        }
    }
    shown.into_iter().collect()
}
