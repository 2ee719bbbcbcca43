//! Printing a picture as a browser does, and the words that stand on the printed pages.

use crate::program::output;
use std::collections::BTreeMap;
use std::ffi::OsString;
use std::fs;
use std::path::{Path, PathBuf};
use std::process::{Command, Stdio};
use std::sync::OnceLock;

const TOOLS: [(&str, &str); 2] = [("chromium", "--version"), ("pdftotext", "-v")];
const PACKAGES: [&str; 2] = ["chromium", "poppler-utils"];

/// How many times each printable ASCII character is there.
pub type Letters = BTreeMap<char, usize>;

/// A word on a printed page, with its box.
#[derive(Clone, Debug)]
pub struct Word {
    pub text: String,
    pub least: [f64; 2],
    pub greatest: [f64; 2],
}

/// A printed page.
#[derive(Debug)]
pub struct Printed {
    pub size: [f64; 2],
    pub words: Vec<Word>,
}

impl Printed {
    /// All words in their order, with spaces between them.
    pub fn text(&self) -> String {
        let words: Vec<&str> = self.words.iter().map(|word| word.text.as_str()).collect();
        words.join(" ")
    }

    pub fn letters(&self) -> Letters {
        letters(&self.text())
    }
}

/// The printable ASCII characters of a text; those that are set as one are counted as two.
pub fn letters(text: &str) -> Letters {
    let apart = text
        .replace('ﬁ', "fi")
        .replace('ﬂ', "fl")
        .replace('ﬀ', "ff");
    let mut letters = Letters::new();
    for letter in apart.chars().filter(char::is_ascii_graphic) {
        *letters.entry(letter).or_default() += 1;
    }
    letters
}

/// Whether the tools are there, after one try to install them.
pub fn is_there() -> bool {
    static THERE: OnceLock<bool> = OnceLock::new();
    *THERE.get_or_init(|| {
        are_installed() || {
            install();
            are_installed()
        }
    })
}

fn are_installed() -> bool {
    TOOLS.iter().all(|(tool, argument)| {
        let mut command = Command::new(tool);
        output_of(command.arg(argument)).is_some()
    })
}

// Where this fails, the tools stay missing.
fn install() {
    for arguments in [
        &["update"][..],
        &["install", "-y", PACKAGES[0], PACKAGES[1]],
    ] {
        let mut command = Command::new("apt-get");
        command.env("DEBIAN_FRONTEND", "noninteractive");
        let _ = output_of(command.args(arguments));
    }
}

// What a command printed, where it ended well.
fn output_of(command: &mut Command) -> Option<Vec<u8>> {
    let output = command.stdin(Stdio::null()).output().ok()?;
    output.status.success().then_some(output.stdout)
}

/// A browser with a folder of its own.
pub struct Printer {
    folder: PathBuf,
}

impl Printer {
    pub fn new(folder: PathBuf) -> Printer {
        Printer { folder }
    }

    /// The pages that the picture is printed on, or what went wrong.
    pub fn print(&self, picture: &Path) -> Result<Vec<Printed>, String> {
        let pdf = self.folder.join("printed.pdf");
        // There need not be an earlier one.
        let _ = fs::remove_file(&pdf);
        let mut command = Command::new("chromium");
        command
            .args(["--headless", "--no-sandbox", "--disable-gpu"])
            .args(["--no-first-run", "--disable-dev-shm-usage"])
            .arg("--no-pdf-header-footer")
            .arg(argument("--user-data-dir=", &self.folder.join("browser")))
            .arg(argument("--print-to-pdf=", &pdf))
            .arg(argument("file://", picture))
            .env("HOME", &self.folder);
        let printed = output(command).map_err(|error| error.to_string())?;
        if !pdf.is_file() {
            return Err(format!("nothing printed: {}", printed.stderr_text()));
        }
        let mut command = Command::new("pdftotext");
        command.arg("-bbox").arg(&pdf).arg("-");
        let text = output_of(&mut command).ok_or("no text of what was printed")?;
        let pages = pages(&String::from_utf8_lossy(&text));
        pages.ok_or("no pages in what was printed".to_string())
    }
}

fn argument(name: &str, path: &Path) -> OsString {
    let mut argument = OsString::from(name);
    argument.push(path);
    argument
}

fn pages(text: &str) -> Option<Vec<Printed>> {
    let mut pages: Vec<Printed> = Vec::new();
    for line in text.lines().map(str::trim) {
        if line.starts_with("<page ") {
            let size = ["width", "height"].map(|name| attribute(line, name));
            pages.push(Printed {
                size: [size[0]?, size[1]?],
                words: Vec::new(),
            });
        } else if line.starts_with("<word ") {
            pages.last_mut()?.words.push(word(line)?);
        }
    }
    Some(pages).filter(|pages| !pages.is_empty())
}

fn word(line: &str) -> Option<Word> {
    let inside = line.split_once('>')?.1.strip_suffix("</word>")?;
    let text = inside.replace("&lt;", "<").replace("&gt;", ">");
    let text = text.replace("&quot;", "\"").replace("&apos;", "'");
    Some(Word {
        text: text.replace("&#39;", "'").replace("&amp;", "&"),
        least: [attribute(line, "xMin")?, attribute(line, "yMin")?],
        greatest: [attribute(line, "xMax")?, attribute(line, "yMax")?],
    })
}

fn attribute(line: &str, name: &str) -> Option<f64> {
    let behind = line.split_once(&format!("{name}=\""))?.1;
    behind.split('"').next()?.parse().ok()
}
