//! Counts of a test group and the messages for its first mismatches.

use std::fmt::Write;
use std::process::ExitCode;
use std::time::{Duration, Instant};
use std::{env, fs, process};

const SHOWN_MISMATCHES: u64 = 3;
const MOST_BYTES_SHOWN: usize = 512;
const MOST_LETTERS_SHOWN: usize = 2000;

/// What a test group does.
pub type Run = fn(&mut Group);

pub type NamedRun = (&'static str, Run);

/// Runs the groups whose names begin so, and prints the closing line.
pub fn run_groups<N: AsRef<str>>(groups: &[(N, Run)], beginning: &str) -> ExitCode {
    let mut passed = 0;
    let mut failed = 0;
    let named = groups.iter().map(|(name, run)| (name.as_ref(), run));
    for (name, run) in named.filter(|(name, _)| name.starts_with(beginning)) {
        let mut group = Group::new(name);
        run(&mut group);
        match group.finish() {
            Outcome::Passed => passed += 1,
            Outcome::Failed => failed += 1,
            Outcome::LeftOut => {}
        }
    }
    println!("{passed} passed, {failed} failed");
    if failed == 0 {
        ExitCode::SUCCESS
    } else {
        ExitCode::FAILURE
    }
}

pub enum Outcome {
    Passed,
    Failed,
    LeftOut,
}

pub struct Group {
    name: String,
    start: Instant,
    inputs: u64,
    comparisons: u64,
    mismatches: u64,
    remark: String,
    left_out: Option<String>,
}

impl Group {
    pub fn new(name: &str) -> Group {
        Group {
            name: name.to_string(),
            start: Instant::now(),
            inputs: 0,
            comparisons: 0,
            mismatches: 0,
            remark: String::new(),
            left_out: None,
        }
    }

    pub fn input(&mut self) {
        self.inputs += 1;
    }

    /// What the group's line ends with.
    pub fn remark(&mut self, remark: String) {
        self.remark = format!("; {remark}");
    }

    /// The group cannot be run here, and counts neither as passed nor as failed.
    pub fn leave_out(&mut self, reason: String) {
        self.left_out = Some(reason);
    }

    /// Counts one comparison and, where it fails, shows the message and the file.
    pub fn check(&mut self, holds: bool, bytes: &[u8], message: impl FnOnce() -> String) {
        self.comparisons += 1;
        if holds {
            return;
        }
        self.mismatches += 1;
        if self.mismatches <= SHOWN_MISMATCHES {
            println!("{}: mismatch {}", self.name, self.mismatches);
            let message: String = message().chars().take(MOST_LETTERS_SHOWN).collect();
            println!("  {message}");
            println!("  {}", self.describe(bytes));
        }
    }

    fn describe(&self, bytes: &[u8]) -> String {
        let length = bytes.len();
        if length <= MOST_BYTES_SHOWN {
            return format!("file of {length} bytes: {}", hex(bytes));
        }
        let name = format!(
            "compare-{}-{}-{}.bin",
            process::id(),
            self.name.replace(' ', "-"),
            self.mismatches
        );
        let path = env::temp_dir().join(name);
        match fs::write(&path, bytes) {
            Ok(()) => format!("file of {length} bytes: stored as {}", path.display()),
            Err(error) => format!("file of {length} bytes, not stored: {error}"),
        }
    }

    /// Prints the group's line and tells how it ended.
    pub fn finish(self) -> Outcome {
        if let Some(reason) = self.left_out {
            println!("left out {}: {reason}", self.name);
            return Outcome::LeftOut;
        }
        let time: Duration = self.start.elapsed();
        let passed = self.mismatches == 0 && self.comparisons > 0;
        println!(
            "{} {}: {} inputs, {} comparisons, {} mismatches, {:.2} s{}",
            if passed { "ok    " } else { "FAILED" },
            self.name,
            self.inputs,
            self.comparisons,
            self.mismatches,
            time.as_secs_f64(),
            self.remark
        );
        if passed {
            Outcome::Passed
        } else {
            Outcome::Failed
        }
    }
}

fn hex(bytes: &[u8]) -> String {
    bytes.iter().fold(String::new(), |mut text, byte| {
        let _ = write!(text, "{byte:02X} ");
        text
    })
}
