//! The viewer's program, plain and sanitized, and what a run of it gives.

use std::ffi::OsStr;
use std::path::{Path, PathBuf};
use std::process::{Command, Stdio};
use std::{env, io};

#[derive(Debug, PartialEq, Eq)]
pub struct Output {
    /// None where a signal ended the program.
    pub status: Option<i32>,
    pub stdout: Vec<u8>,
    pub stderr: Vec<u8>,
}

impl Output {
    pub fn stdout_text(&self) -> String {
        String::from_utf8_lossy(&self.stdout).into_owned()
    }

    pub fn stderr_text(&self) -> String {
        String::from_utf8_lossy(&self.stderr).into_owned()
    }
}

#[derive(Clone, Debug)]
pub struct Program {
    path: PathBuf,
}

impl Program {
    pub fn plain() -> Program {
        Program::named("JTVIEW", "target/viewer/jtview")
    }

    pub fn sanitized() -> Program {
        Program::named("JTVIEW_SANITIZED", "target/viewer/jtview-sanitized")
    }

    fn named(variable: &str, usual: &str) -> Program {
        let path = match env::var_os(variable) {
            Some(path) => PathBuf::from(path),
            None => repository().join(usual),
        };
        // The program is run from other folders too.
        let path = path.canonicalize().unwrap_or(path);
        Program { path }
    }

    pub fn path(&self) -> &Path {
        &self.path
    }

    pub fn is_there(&self) -> bool {
        self.path.is_file()
    }

    pub fn run<S: AsRef<OsStr>>(&self, arguments: &[S]) -> Output {
        self.run_in(&repository(), arguments)
    }

    pub fn run_in<S: AsRef<OsStr>>(&self, folder: &Path, arguments: &[S]) -> Output {
        let mut command = Command::new(&self.path);
        command.current_dir(folder).args(arguments);
        output(command).unwrap_or_else(|error| Output {
            status: None,
            stdout: Vec::new(),
            stderr: error.to_string().into_bytes(),
        })
    }
}

/// Runs any command with nothing on its standard input.
pub fn output(mut command: Command) -> io::Result<Output> {
    let output = command.stdin(Stdio::null()).output()?;
    Ok(Output {
        status: output.status.code(),
        stdout: output.stdout,
        stderr: output.stderr,
    })
}

/// Whether there are as many lines as these, each beginning with one of them in turn.
pub fn lines_begin(text: &str, starts: &[&str]) -> bool {
    let mut pairs = text.lines().zip(starts);
    text.lines().count() == starts.len() && pairs.all(|(line, start)| line.starts_with(start))
}

/// The folder that the samples and the documents are in.
pub fn repository() -> PathBuf {
    Path::new(env!("CARGO_MANIFEST_DIR")).join("../..")
}
