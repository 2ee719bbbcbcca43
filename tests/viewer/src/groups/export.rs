//! What is exported of files, whole, cut and damaged, by the independent readers.

mod from_abif;
mod from_gtc;
mod from_sff;

use super::cuts::cuts;
use super::damaged::{abif_files, gtc_files, sff_files};
use crate::drawing::Input;
use crate::findings::Findings;
use crate::program::{Output, Program};
use crate::scratch::Scratch;
use crate::verdict::{self, Format};
use crate::words::{self, cleaned};
use crate::{abif, gtc, sff, workers};
use compare::refusal::Refusal;
use compare::report::Group;
use std::ffi::OsString;
use std::fs;
use std::os::unix::ffi::OsStrExt;
use std::path::Path;

const DAMAGED: usize = 150;
const LETTERS_A_LINE: usize = 60;
const FIRST_QUALITY: i64 = 33;
const NOT_EXPORTED: &str =
    "is refused, and nothing is exported; --refused exports what can be read";
const NOT_REPLACED: &str = "is there already, and is not replaced";

#[derive(Clone, Copy, Debug, PartialEq, Eq)]
pub enum Kind {
    Fasta,
    Fastq,
    Csv,
}

/// What is asked of an export.
#[derive(Clone, Copy, Debug)]
pub struct Asked {
    pub kind: Kind,
    pub trimmed: bool,
    pub raw: bool,
    pub read: Option<u64>,
    pub refused: bool,
}

impl Asked {
    pub const fn new(kind: Kind) -> Asked {
        Asked {
            kind,
            trimmed: false,
            raw: false,
            read: None,
            refused: false,
        }
    }

    const fn trimmed(self) -> Asked {
        Asked {
            trimmed: true,
            ..self
        }
    }

    const fn raw(self) -> Asked {
        Asked { raw: true, ..self }
    }

    const fn read(self, number: u64) -> Asked {
        Asked {
            read: Some(number),
            ..self
        }
    }

    pub const fn refused(self) -> Asked {
        Asked {
            refused: true,
            ..self
        }
    }

    pub fn arguments(&self, file: &Path) -> Vec<OsString> {
        let kind = match self.kind {
            Kind::Fasta => "--fasta",
            Kind::Fastq => "--fastq",
            Kind::Csv => "--csv",
        };
        let mut arguments: Vec<OsString> = vec!["export".into(), file.into(), kind.into()];
        let flags = [
            (self.trimmed, "--trimmed"),
            (self.raw, "--raw"),
            (self.refused, "--refused"),
        ];
        arguments.extend(flags.iter().filter(|it| it.0).map(|it| it.1.into()));
        arguments.extend(self.read.map(|number| format!("--read={number}").into()));
        arguments
    }
}

const FASTA: Asked = Asked::new(Kind::Fasta);
const FASTQ: Asked = Asked::new(Kind::Fastq);
const CSV: Asked = Asked::new(Kind::Csv);
const OF_ABIF: [Asked; 4] = [FASTA, FASTQ, CSV, CSV.raw()];
const OF_SFF: [Asked; 8] = [
    FASTA,
    FASTQ,
    FASTA.trimmed(),
    FASTQ.trimmed(),
    FASTA.read(1),
    FASTQ.trimmed().read(3),
    FASTA.read(2),
    FASTA.read(0),
];
const OF_GTC: [Asked; 1] = [CSV];

/// What can be asked of a file of this format.
pub fn all_asked(format: Format) -> &'static [Asked] {
    match format {
        Format::Abif | Format::Unknown => &OF_ABIF,
        Format::Sff => &OF_SFF,
        Format::Gtc => &OF_GTC,
    }
}

/// What comes of an export: the text, where there is one, the ends of the messages, and the status.
#[derive(Default)]
pub struct Exported {
    text: Option<String>,
    messages: Vec<String>,
    status: i32,
}

impl Exported {
    // Nothing, for this reason.
    fn nothing(status: i32, message: impl ToString) -> Exported {
        Exported {
            text: None,
            messages: vec![message.to_string()],
            status,
        }
    }

    fn refused(what: &str, refusal: Refusal) -> Exported {
        Exported::nothing(1, format!("{what}: {}", words::refused(refusal)))
    }

    fn lacks(&mut self, message: String) {
        self.messages.push(message);
        self.status = 1;
    }

    fn write(&mut self, text: &str) {
        self.text.get_or_insert_default().push_str(text);
    }

    fn of(file: &Path, bytes: &[u8], asked: Asked) -> Exported {
        match (Format::of(bytes), asked.kind) {
            (Format::Unknown, _) => return Exported::nothing(1, ""),
            (Format::Sff, Kind::Csv) | (Format::Gtc, Kind::Fasta | Kind::Fastq) => {
                return Exported::nothing(2, "")
            }
            _ => {}
        }
        if !verdict::is_whole(bytes) && !asked.refused {
            return Exported::nothing(1, NOT_EXPORTED);
        }
        let mut exported = match Format::of(bytes) {
            Format::Abif => from_abif::exported(file, bytes, asked),
            Format::Sff => from_sff::exported(bytes, asked),
            _ => from_gtc::exported(bytes),
        };
        if !verdict::is_whole(bytes) {
            exported.status = 1;
        }
        exported
    }
}

/// A record of letters and, for FASTQ, of qualities, which are 0 to 93.
pub struct Record {
    pub id: String,
    pub words: String,
    pub letters: Vec<i64>,
    pub qualities: Vec<i64>,
}

impl Record {
    // The record, or which of its parts cannot be written; `first` is the number of its first letter.
    fn text(&self, kind: Kind, mark: &str, first: usize) -> Result<String, String> {
        let is_letter = |&letter: &i64| {
            let letter = u8::try_from(letter).unwrap_or(0);
            letter.is_ascii_alphabetic() || b"-*".contains(&letter)
        };
        let cannot =
            |what: &str, index: usize| format!("{what} {} cannot be written", first + index);
        let wrong_letter = self.letters.iter().position(|it| !is_letter(it));
        let wrong_quality = self.qualities.iter().position(|it| !(0..=93).contains(it));
        let wrong_quality = wrong_quality.filter(|_| kind == Kind::Fastq);
        if let Some(letter) = wrong_letter {
            return Err(cannot("letter", letter));
        }
        if let Some(quality) = wrong_quality {
            return Err(cannot("quality", quality));
        }
        let header = format!("{} {}{mark}", self.id, self.words);
        let letters = characters(&self.letters, 0);
        Ok(match kind {
            Kind::Fasta => format!(">{header}\n{}", in_lines(&letters)),
            _ => {
                let qualities = characters(&self.qualities, FIRST_QUALITY);
                format!("@{header}\n{letters}\n+\n{qualities}\n")
            }
        })
    }
}

// What a header says of a refused file, and nothing of a whole one.
fn mark(bytes: &[u8], separator: char) -> String {
    let refused = verdict::refused(bytes);
    refused.map_or(String::new(), |it| {
        format!("{separator}FILE REFUSED {}", it.refusal as u64)
    })
}

fn characters(numbers: &[i64], added: i64) -> String {
    let character = |number: &i64| char::from((number + added) as u8);
    numbers.iter().map(character).collect()
}

fn in_lines(letters: &str) -> String {
    let lines = letters.as_bytes().chunks(LETTERS_A_LINE);
    let line = |line: &[u8]| format!("{}\n", String::from_utf8_lossy(line));
    lines.map(line).collect()
}

// A text that is to be one word.
fn word(text: &[u8]) -> String {
    cleaned(text).replace(char::is_whitespace, "_")
}

fn counted(count: usize, what: &str) -> String {
    let plural = if count == 1 { "" } else { "s" };
    format!("{count} {what}{plural}")
}

pub fn export(group: &mut Group) {
    let samples = Input::samples();
    check_all(group, &samples, true);
    check_all(group, &whole_files(), true);
    check_all(group, &other_files(), false);
    let many = sff::files::many_reads().into_iter();
    let many: Vec<Input> = many.map(|bytes| Input::new("many reads", bytes)).collect();
    check_all(group, &many, false);
    for input in samples.iter().chain(&whole_files()) {
        into_files(group, input);
    }
}

fn whole_files() -> Vec<Input> {
    let mut files = from_abif::runs();
    files.extend(abif::files::runs());
    files.extend(sff::files::runs());
    files.extend(from_sff::runs());
    files.extend(gtc::files::files());
    files.push(from_gtc::many_snps());
    let files = files.into_iter().enumerate();
    files
        .map(|(index, bytes)| Input::new(format!("file {index}"), bytes))
        .collect()
}

fn other_files() -> Vec<Input> {
    let mut inputs = abif_files(DAMAGED);
    inputs.extend(sff_files(DAMAGED));
    inputs.extend(gtc_files(DAMAGED));
    inputs.extend(cuts(&from_abif::runs()[..1]));
    inputs.extend(cuts(&sff::files::runs()[..3]));
    inputs.extend(cuts(&gtc::files::files()[..1]));
    inputs
}

// Of many files not all is asked of each, but in turn.
fn check_all(group: &mut Group, inputs: &[Input], is_all: bool) {
    let scratch = Scratch::new();
    let findings = workers::each(inputs.len(), |worker, index| {
        let bytes = &inputs[index].bytes;
        let file = scratch.write(format!("a file-{worker}"), bytes);
        let mut findings = Findings::default();
        let all = all_asked(Format::of(bytes));
        let turn = if is_all {
            all
        } else {
            &all[index % all.len()..][..1]
        };
        for asked in turn.iter().flat_map(|asked| [*asked, asked.refused()]) {
            check(&mut findings, &file, bytes, asked);
        }
        if is_all {
            for kind in [Kind::Fasta, Kind::Fastq, Kind::Csv] {
                check(&mut findings, &file, bytes, Asked::new(kind));
            }
        }
        findings
    });
    for (found, input) in findings.into_iter().zip(inputs) {
        found.report(group, &input.name, &input.bytes);
    }
}

fn check(findings: &mut Findings, file: &Path, bytes: &[u8], asked: Asked) {
    let output = Program::plain().run(&asked.arguments(file));
    let expected = Exported::of(file, bytes, asked);
    let text = expected.text.clone().unwrap_or_default();
    findings.check(output.stdout == text.as_bytes(), || {
        format!("{asked:?}: {:?}, expected {text:?}", output.stdout_text())
    });
    let lines = verdict::lines(file.as_os_str().as_bytes(), bytes);
    let behind = output.stderr.strip_prefix(&lines[..]);
    findings.check(behind.is_some(), || {
        format!("{asked:?}: complained {:?}", output.stderr_text())
    });
    check_end(
        findings,
        file,
        behind.unwrap_or_default(),
        &output,
        asked,
        &expected,
    );
}

// The messages, and the status.
fn check_end(
    findings: &mut Findings,
    file: &Path,
    told: &[u8],
    output: &Output,
    asked: Asked,
    expected: &Exported,
) {
    let told = String::from_utf8_lossy(told);
    let start = format!("jtview: {}: ", cleaned(file.as_os_str().as_bytes()));
    let is_said = |(line, message): (&str, &String)| {
        let said = line.strip_prefix(&start);
        said.is_some_and(|said| said == message || (message.is_empty() && !said.is_empty()))
    };
    let fits = told.lines().count() == expected.messages.len()
        && told.lines().zip(&expected.messages).all(is_said);
    findings.check(fits, || {
        format!("{asked:?}: told {told:?}, expected {:?}", expected.messages)
    });
    findings.check(output.status == Some(expected.status), || {
        format!(
            "{asked:?}: status {:?}, expected {}",
            output.status, expected.status
        )
    });
}

// The same into a file, which is there just where something is exported, and is replaced by no other.
fn into_files(group: &mut Group, input: &Input) {
    let scratch = Scratch::new();
    let bytes = &input.bytes;
    let file = scratch.write("file", bytes);
    let out = scratch.path("out");
    let mut findings = Findings::default();
    let asked = all_asked(Format::of(bytes)).iter();
    for asked in asked.flat_map(|asked| [*asked, asked.refused()]) {
        let expected = Exported::of(&file, bytes, asked);
        let mut arguments = asked.arguments(&file);
        arguments.extend(["-o".into(), out.clone().into()]);
        let output = Program::plain().run(&arguments);
        let found = fs::read(&out).ok();
        findings.check(
            found == expected.text.clone().map(String::into_bytes),
            || format!("{asked:?}: in the file {found:?}"),
        );
        let lines = verdict::lines(file.as_os_str().as_bytes(), bytes);
        findings.check(output.stdout == lines, || {
            format!("{asked:?}: printed {:?}", output.stdout_text())
        });
        check_end(
            &mut findings,
            &file,
            &output.stderr,
            &output,
            asked,
            &expected,
        );
        if found.is_some() {
            check_kept(&mut findings, &out, &arguments);
        }
        check_folder(&mut findings, &scratch);
    }
    findings.report(group, &input.name, bytes);
}

// Another export leaves what is there, whatever that is.
fn check_kept(findings: &mut Findings, out: &Path, arguments: &[OsString]) {
    fs::write(out, b">mine\n").expect("a file in the temporary folder");
    let output = Program::plain().run(arguments);
    let message = format!("jtview: {}: {NOT_REPLACED}\n", out.display());
    findings.check(output.stderr_text().ends_with(&message), || {
        format!("{arguments:?}: complained {:?}", output.stderr_text())
    });
    let kept = fs::read(out).ok();
    let is_kept = kept.as_deref() == Some(b">mine\n") && output.status == Some(2);
    findings.check(is_kept, || {
        format!("{arguments:?}: status {:?}, {kept:?}", output.status)
    });
    fs::remove_file(out).expect("a file in the temporary folder");
}

// Nothing but the file itself is left.
fn check_folder(findings: &mut Findings, scratch: &Scratch) {
    let entries = fs::read_dir(scratch.folder()).expect("a folder of this test");
    let names: Vec<OsString> = entries.flatten().map(|entry| entry.file_name()).collect();
    findings.check(names == ["file"], || format!("left {names:?}"));
}
