//! Names, contents and words of the command line that would change what a terminal shows: nothing of them reaches it.

use crate::findings::Findings;
use crate::program::{Output, Program};
use crate::scratch::Scratch;
use crate::verdict;
use crate::words::{cleaned, is_shown};
use compare::abif::generate::{plain_file, Content, Order};
use compare::abif::reader::Tag;
use compare::gtc::generate as gtc;
use compare::report::Group;
use compare::sff::draft::{Draft, Read};
use std::ffi::{OsStr, OsString};
use std::fs::File;
use std::io::Read as _;
use std::os::unix::ffi::{OsStrExt, OsStringExt};
use std::process::{Command, Stdio};

const P_STRING: i16 = 18;
const C_STRING: i16 = 19;
const BOOL: i16 = 13;
const MANY: usize = 1_000_000;

/// What a terminal may take for a command, what turns or hides the letters around it, and what is no text at all; and
/// letters that it must show.
const TEXTS: [&[u8]; 17] = [
    b"\x1B[2J\x1B]0;title\x07",
    b"a\rb\nc\td\x08\x7F",
    "\u{80}\u{85}\u{90}\u{9B}2J\u{9F}".as_bytes(),
    "\u{202A}\u{202E}abc\u{202C}\u{2066}\u{2069}".as_bytes(),
    "a\u{200B}b\u{200F}c\u{2028}d\u{2029}e\u{2060}f\u{FEFF}g\u{61C}".as_bytes(),
    "\u{FFF9}a\u{FFFB}\u{FDD0}\u{FDEF}\u{FFFE}\u{1FFFF}\u{10FFFF}".as_bytes(),
    b"\x9B2J\xC2\xC3\x28\xFF\xFE",
    b"\xC0\xAF\xC1\x9B\xE0\x80\x9B\xF0\x80\x80\x9B",
    b"\xED\xA0\x80\xED\xBF\xBF\xF4\x90\x80\x80\xF8\x88",
    b"\xE2\x82\xF0\x9F\x98\xE0\xB9",
    "ลำดับเบส ก่อน".as_bytes(),
    "Größe, année, Żółć".as_bytes(),
    "配列 データ 서열".as_bytes(),
    "ברצף تسلسل".as_bytes(),
    "🧬 and e\u{301}".as_bytes(),
    "a b\u{A0}c\u{3000}d\u{2003}e".as_bytes(),
    "\u{200A}\u{2010}\u{2027}\u{202F}\u{205F}\u{2070}\u{FFFC}\u{FFFD}".as_bytes(),
];

/// What is done with a file of that name, and with names that lead nowhere.
const NAMED: [&[&str]; 13] = [
    &["%"],
    &["list", "%"],
    &["show", "%", "ABCD", "1"],
    &["draw", "%"],
    &["export", "--fasta", "%"],
    &["export", "--fasta", "--refused", "%"],
    &["export", "--csv", "%"],
    &["list", "no/%"],
    &["draw", "%", "-o", "no/%"],
    &["export", "--fasta", "--refused", "-o", "no/%", "%"],
    &["check", "%"],
    &["check", "%", "%"],
    &["check", "no/%"],
];

/// What is done with files that have the text in them, and whether it is told.
const CONTENTS: [(&[&str], bool); 15] = [
    (&["list", "file.ab1"], false),
    (&["cut.ab1"], false),
    (&["list", "cut.ab1"], false),
    (&["show", "file.ab1", "SMPL", "1"], true),
    (&["show", "file.ab1", "CMNT", "1"], true),
    (&["show", "file.ab1", "PBAS", "2"], false),
    (&["export", "--fasta", "file.ab1"], true),
    (&["export", "--refused", "--fasta", "cut.ab1"], true),
    (&["list", "file.sff"], true),
    (&["export", "--fasta", "file.sff"], false),
    (&["export", "--fastq", "file.sff"], false),
    (&["list", "file.gtc"], true),
    (&["check", "model.ab1"], true),
    (&["check", "file.ab1", "--profile=3"], false),
    (&["check", "."], false),
];

/// Words that are wrong, with a text in the place of the mark.
const WRONG: [&[&str]; 11] = [
    &["--%"],
    &["-%"],
    &["draw", "--%", "file"],
    &["draw", "--read=%", "file"],
    &["draw", "--points", "%", "file"],
    &["draw", "--paper", "%", "file"],
    &["show", "file", "%", "1"],
    &["show", "file", "PBAS", "%"],
    &["export", "-%", "file"],
    &["export", "--read", "%", "--fasta", "file"],
    &["check", "--profile", "%", "file"],
];

pub fn terminal(group: &mut Group) {
    for text in TEXTS {
        let mut findings = Findings::default();
        check_shown(&mut findings, text);
        check_names(&mut findings, text);
        check_contents(&mut findings, text);
        check_words(&mut findings, text);
        findings.report(group, &format!("{:?}", String::from_utf8_lossy(text)), text);
    }
    cut_while_it_is_read(group);
}

// The program waits until its output is read, and finds its file cut when it goes on.
fn cut_while_it_is_read(group: &mut Group) {
    let scratch = Scratch::new();
    let items = [(Tag::new(b"MANY", 1), Content::listed(BOOL, vec![1; MANY]))];
    let bytes = plain_file(&items, Order::DirectoryFirst).bytes();
    let name = OsStr::from_bytes(b"cut\x1B[2J\x9B");
    let file = scratch.write(name, &bytes);
    let started = Command::new(Program::plain().path())
        .arg("show")
        .arg(&file)
        .args(["MANY", "1"])
        .stdout(Stdio::piped())
        .stderr(Stdio::piped())
        .spawn();
    let Ok(mut child) = started else {
        return group.check(false, &[], || "the program does not run".to_string());
    };
    let mut first = [0];
    let read = child.stdout.as_mut().map(|out| out.read_exact(&mut first));
    let cut = File::options().write(true).open(&file);
    let cut = cut.and_then(|file| file.set_len(1));
    let ended = child.wait_with_output();
    let expected = format!(
        "jtview: {}: was cut while it was read, or cannot be read\n",
        cleaned(file.as_os_str().as_bytes())
    );
    let is_told = matches!(&ended, Ok(ended) if ended.status.code() == Some(2)
        && ended.stderr == expected.as_bytes());
    group.input();
    group.check(
        is_told && cut.is_ok() && matches!(read, Some(Ok(()))),
        &[],
        || {
            let told = ended.map(|ended| {
                (
                    ended.status,
                    String::from_utf8_lossy(&ended.stderr).into_owned(),
                )
            });
            format!("{told:?}")
        },
    );
}

// The rule itself: what is shown may be shown, and what may be shown is left as it is.
fn check_shown(findings: &mut Findings, text: &[u8]) {
    let shown = cleaned(text);
    findings.check(shown.chars().all(is_shown), || format!("shown {shown:?}"));
    let is_plain = std::str::from_utf8(text).is_ok_and(|text| text.chars().all(is_shown));
    findings.check(!is_plain || shown.as_bytes() == text, || {
        format!("shown {shown:?}")
    });
}

fn check_names(findings: &mut Findings, text: &[u8]) {
    let scratch = Scratch::new();
    let name: Vec<u8> = text.iter().copied().filter(|&it| it != b'/').collect();
    let name = OsString::from_vec([b"n", &name[..]].concat());
    let shown = cleaned(name.as_bytes());
    let bytes = compare::sff::samples::one_read();
    let bytes = &bytes[..bytes.len() - 1];
    scratch.write(&name, bytes);
    for words in NAMED {
        let arguments = filled(words, name.as_bytes());
        let output = Program::plain().run_in(scratch.folder(), &arguments);
        check_output(findings, &output, &arguments);
        let told = output.stdout_text() + &output.stderr_text();
        findings.check(told.contains(&shown), || {
            format!("{arguments:?}: {told:?} without {shown:?}")
        });
    }
    let output = Program::plain().run_in(scratch.folder(), &["."]);
    check_output(findings, &output, &["."]);
    let lines = verdict::lines(&[b"./", name.as_bytes()].concat(), bytes);
    findings.check(output.stdout.starts_with(&lines), || {
        format!("printed {:?}", output.stdout_text())
    });
}

// The text as a sample's and a read's name, as called letters, as a tag, and as the strings of a GTC file.
fn check_contents(findings: &mut Findings, text: &[u8]) {
    let scratch = Scratch::new();
    let abif = abif_file(text);
    scratch.write("file.ab1", &abif);
    scratch.write("model.ab1", &model_file(text));
    scratch.write("cut.ab1", &abif[..abif.len() - 1]);
    scratch.write("file.sff", &sff_file(text));
    let items = [(10, gtc::text(text)), (200, gtc::text(text))];
    scratch.write("file.gtc", &gtc::plain_file(&items).bytes());
    let shown = cleaned(text);
    for (arguments, is_told) in CONTENTS {
        let output = Program::plain().run_in(scratch.folder(), arguments);
        check_output(findings, &output, arguments);
        findings.check(!is_told || output.stdout_text().contains(&shown), || {
            format!(
                "{arguments:?}: {:?} without {shown:?}",
                output.stdout_text()
            )
        });
    }
}

fn abif_file(text: &[u8]) -> Vec<u8> {
    let p_string = [&[text.len() as u8], text].concat();
    let c_string = [text, &[0]].concat();
    let tag = [text[0], text[1], text[2], text[3]];
    let items = [
        (Tag::new(b"SMPL", 1), Content::listed(P_STRING, p_string)),
        (Tag::new(b"CMNT", 1), Content::listed(C_STRING, c_string)),
        (Tag::new(b"PBAS", 1), Content::listed(2, b"GATC".to_vec())),
        (Tag::new(b"PBAS", 2), Content::listed(2, text.to_vec())),
        (Tag::new(&tag, 7), Content::listed(4, vec![0; 600])),
    ];
    plain_file(&items, Order::DirectoryFirst).bytes()
}

// A file that names its instrument's model by the text.
fn model_file(text: &[u8]) -> Vec<u8> {
    let items = [(Tag::new(b"MODL", 1), Content::listed(2, text.to_vec()))];
    plain_file(&items, Order::DirectoryFirst).bytes()
}

fn sff_file(text: &[u8]) -> Vec<u8> {
    let mut read = Read::new(text, 8, &[1, 1]);
    read.letters = vec![b'A', text[0]];
    let mut draft = Draft::new(8, 4, vec![Read::new(text, 8, &[1, 1]), read], None);
    draft.letters[..4].copy_from_slice(&text[..4]);
    draft.letters[9..12].copy_from_slice(&text[1..4]);
    draft.bytes()
}

// The words, with the text in the place of each mark.
fn filled(words: &[&str], text: &[u8]) -> Vec<OsString> {
    let fill = |word: &&str| match word.split_once('%') {
        Some((before, _)) => OsString::from_vec([before.as_bytes(), text].concat()),
        None => word.into(),
    };
    words.iter().map(fill).collect()
}

fn check_words(findings: &mut Findings, text: &[u8]) {
    let scratch = Scratch::new();
    for words in WRONG {
        let arguments = filled(words, text);
        let output = Program::plain().run_in(scratch.folder(), &arguments);
        check_output(findings, &output, &arguments);
        findings.check(output.status == Some(2) && output.stdout.is_empty(), || {
            format!("{arguments:?}: {output:?}")
        });
    }
}

// All that is printed is text, and each character of it may be shown.
fn check_output<S: AsRef<OsStr>>(findings: &mut Findings, output: &Output, arguments: &[S]) {
    for printed in [&output.stdout, &output.stderr] {
        let text = std::str::from_utf8(printed);
        let is_clean = text.is_ok_and(|text| text.chars().all(|it| it == '\n' || is_shown(it)));
        findings.check(is_clean, || {
            let words: Vec<&OsStr> = arguments.iter().map(AsRef::as_ref).collect();
            format!("{words:?} printed {:?}", String::from_utf8_lossy(printed))
        });
    }
}
