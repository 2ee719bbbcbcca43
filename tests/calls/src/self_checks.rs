//! The checks themselves, on a small format: sound as it stands, and with one thing changed that must be found.

use crate::report::Report;
use crate::rules;
use crate::sources::Sources;

const TOY: &str = include_str!("toy.txt");
const SPEC: &str = "crates/promises/specs/Toy.antt";
const JUDGE: &str = "crates/toy/src/judge.rt";
const LOOKUP: &str = "crates/toy/src/lookup.rt";
const FILE: &str = "crates/toy_file/src/file.rt";
const FILE_SPEC: &str = "crates/toy_file/specs/File.antt";
const OPENED: &str = "crates/toy_file/src/opened.rt";
const CAPI: &str = "crates/capi/src/jt_toy.rt";
const HEADER: &str = "include/jintarueng.h";
const LIST: &str = "tests/calls/no-reading-calls.txt";

/// A file, what stands in it, what is written in its place, and the failures that are due.
type Change = (
    &'static str,
    &'static str,
    &'static str,
    &'static [&'static str],
);

pub fn run(report: &mut Report) {
    let toy = toy();
    let sound = rules::check(&toy);
    report.check(sound.failures.is_empty() && sound.passed > 0, || {
        format!("self-check: the sound format fails: {:?}", sound.failures)
    });
    let nothing = rules::check(&Sources::default());
    report.check(!nothing.failures.is_empty(), || {
        "self-check: no sources at all pass".to_string()
    });
    let definitions = OTHER_DEFINITIONS.iter().chain(&TAILS).chain(&CLAUSES);
    for change in NEW_CALLS.iter().chain(definitions).chain(&NAMES) {
        check(report, &toy, change);
    }
}

fn check(report: &mut Report, toy: &Sources, (path, from, to, due): &Change) {
    let text = toy.text(path);
    let mut changed = toy.clone();
    changed
        .texts
        .insert(path.to_string(), text.replacen(from, to, 1));
    let failures = rules::check(&changed).failures;
    report.check(text.contains(from) && failures == *due, || {
        format!("self-check: {from:?} as {to:?} in {path} gives {failures:?}, not {due:?}")
    });
}

// The texts between the lines that begin with `== ` and a path.
fn toy() -> Sources {
    let mut sources = Sources::default();
    for piece in TOY.split("== ").skip(1) {
        if let Some((path, text)) = piece.split_once('\n') {
            sources.texts.insert(path.to_string(), text.to_string());
        }
    }
    sources
}

/// Public calls that no list has.
const NEW_CALLS: [Change; 20] = [
    (
        JUDGE,
        "pub(crate) fn inner",
        "pub fn inner",
        &["toy::judge::inner: it is lent bytes, but neither a constructor nor tests/calls/no-reading-calls.txt names it"],
    ),
    (
        JUDGE,
        "fn own(s: &[u8])",
        "pub fn own<'a>(n: u8, s: &'a [u8])",
        &["toy::judge::own: it is lent bytes, but neither a constructor nor tests/calls/no-reading-calls.txt names it"],
    ),
    (
        JUDGE,
        "pub fn number(n: u8,",
        "pub fn number(n: &mut [u8],",
        &["toy::judge::number: it is lent bytes, but neither a constructor nor tests/calls/no-reading-calls.txt names it"],
    ),
    (
        JUDGE,
        "pub fn number(n: u8,",
        "pub fn number(n: file::ToyFile<'a>,",
        &["toy::judge::number: it is lent bytes, but neither a constructor nor tests/calls/no-reading-calls.txt names it"],
    ),
    (
        JUDGE,
        "pub fn number(n: u8,",
        "pub struct Held<'a>(ToyFile<'a>);\npub fn number(n: Held<'a>,",
        &["toy::judge::number: it is lent bytes, but neither a constructor nor tests/calls/no-reading-calls.txt names it"],
    ),
    (
        JUDGE,
        "pub fn number(n: u8,",
        "pub fn number(&self,",
        &["toy::judge::number: it is lent bytes, but neither a constructor nor tests/calls/no-reading-calls.txt names it"],
    ),
    (
        JUDGE,
        "pub fn number(n: u8,",
        "impl<'a> ToyFile<'a> {\npub fn number(&self,",
        &["toy::judge::number: it is lent bytes, but neither a constructor nor tests/calls/no-reading-calls.txt names it"],
    ),
    (
        JUDGE,
        "pub fn number(n: u8,",
        "impl file::ToyFile<'_> {\npub fn number(&self,",
        &["toy::judge::number: it is lent bytes, but neither a constructor nor tests/calls/no-reading-calls.txt names it"],
    ),
    (
        JUDGE,
        "pub fn number(n: u8,",
        "impl<'a> crate::file::ToyFile<'a> {\npub fn number(&self,",
        &["toy::judge::number: it is lent bytes, but neither a constructor nor tests/calls/no-reading-calls.txt names it"],
    ),
    (
        JUDGE,
        "pub fn number(n: u8,",
        "impl<'a, T> ToyFile<'a, T> where T: Copy {\npub fn number(&self,",
        &["toy::judge::number: it is lent bytes, but neither a constructor nor tests/calls/no-reading-calls.txt names it"],
    ),
    (
        JUDGE,
        "pub fn number(n: u8,",
        "struct Lent<B> { bytes: B }\nimpl<B: AsRef<[u8]>> Lent<B> {\npub fn number(&self,",
        &["toy::judge::number: it is lent bytes, but neither a constructor nor tests/calls/no-reading-calls.txt names it"],
    ),
    (
        JUDGE,
        "pub fn number(n: u8,",
        "type Alias<'a> = ToyFile<'a>;\nimpl Alias<'_> {\npub fn number(&self,",
        &["toy::judge::number: it is lent bytes, but neither a constructor nor tests/calls/no-reading-calls.txt names it"],
    ),
    (
        JUDGE,
        "pub fn number(n: u8,",
        "struct Four<'a> { four: &'a [u8; 4] }\nimpl Four<'_> {\npub fn number(&self,",
        &["toy::judge::number: it is lent bytes, but neither a constructor nor tests/calls/no-reading-calls.txt names it"],
    ),
    (
        JUDGE,
        "pub fn number(n: u8,",
        "struct Count { n: u8 }\nimpl Count {\nfn other(self) {}\npub fn number(self,",
        &[],
    ),
    (
        JUDGE,
        "pub fn number(n: u8,",
        "pub fn number<T: AsRef<[u8]>>(n: T,",
        &["toy::judge::number: it is lent bytes, but neither a constructor nor tests/calls/no-reading-calls.txt names it"],
    ),
    (
        "crates.txt",
        "other: reading",
        "toy_more: reading",
        &["toy_more::length: it is lent bytes, but neither a constructor nor tests/calls/no-reading-calls.txt names it"],
    ),
    (
        "crates.txt",
        "other: reading",
        "toy_more staticlib: reading",
        &["toy_more::length: it is lent bytes, but neither a constructor nor tests/calls/no-reading-calls.txt names it"],
    ),
    (
        CAPI,
        "jt_toy_normalise(x: u16)",
        "jt_toy_normalise(x: &[u8])",
        &["jt_toy_normalise: it is lent bytes, but neither a constructor nor tests/calls/no-reading-calls.txt names it"],
    ),
    (
        HEADER,
        "jt_toy_normalise(uint16_t x)",
        "jt_toy_normalise(const uint8_t *bytes,\n    size_t len)",
        &[
            "jt_toy_normalise: include/jintarueng.h gives it a file, but in capi no such function is lent bytes",
        ],
    ),
    (
        SPEC,
        "-- toy::judge::judge, jt_toy_judge",
        "-- toy::judge::judge",
        &[
            "jt_toy_judge: it is lent bytes, but neither a constructor nor tests/calls/no-reading-calls.txt names it",
        ],
    ),
];

/// Calls whose promise cites another definition than their constructor has.
const OTHER_DEFINITIONS: [Change; 17] = [
    (
        JUDGE,
        "verdict_of judging",
        "verdict_of seeming",
        &["toy::judge::judge: its ensures cites toy.seeming, but constructor judge in Toy.antt is toy.Judge.judging"],
    ),
    (
        JUDGE,
        "verdict_of judging toy_extent",
        "verdict_of (looking_up judging) toy_extent",
        &["toy::judge::judge: its ensures cites toy.looking_up, but constructor judge in Toy.antt is toy.Judge.judging"],
    ),
    (
        JUDGE,
        "Rattle.toy.specs.Judge.{judging, verdict}",
        "Rattle.other.specs.Judge.{judging, verdict}",
        &["toy::judge::judge: its ensures cites other.Judge.judging, but constructor judge in Toy.antt is toy.Judge.judging"],
    ),
    (
        CAPI,
        "judging as toy_judging",
        "seeming as toy_judging",
        &["jt_toy_judge: its ensures cites toy.Judge.seeming, but constructor judge in Toy.antt is toy.Judge.judging"],
    ),
    (
        LOOKUP,
        "filled (answer (looking_up name)",
        "filled (answer (found name)",
        &["toy::lookup::lookup: its ensures cites toy.Lookup.found and toy.Lookup.looking_up, but constructor lookup in Toy.antt is toy.Lookup.looking_up"],
    ),
    (
        LOOKUP,
        "header as header_fields",
        "found as header_fields",
        &["toy::lookup::read_header: its ensures cites toy.Lookup.found, but constructor fields in Toy.antt is toy.Lookup.header"],
    ),
    (
        OPENED,
        "of_opened place count (looking_up name)",
        "of_opened place count (listing name)",
        &["toy_file::opened::lookup: its ensures cites toy_file.listing, but constructor lookup in Toy.antt is toy.Lookup.looking_up"],
    ),
    (
        OPENED,
        "of_opened place count (looking_up name)",
        "looking_up name",
        &["toy_file::opened::lookup: it is given an opened file's place, but its ensures is not of it"],
    ),
    (
        OPENED,
        "pub fn lookup(s: &[u8], place: u64, count: u64, name: u32) -> Found\n    ensures { found result ≡ answer (of_opened place count (looking_up name))",
        "struct At { place: u64, count: u64 }\nimpl At {\npub fn lookup(self, s: &[u8], name: u32) -> Found\n    ensures { found result ≡ answer (looking_up name)",
        &["toy_file::opened::lookup: it is given an opened file's place, but its ensures is not of it"],
    ),
    (
        OPENED,
        "pub fn lookup(s: &[u8], place: u64, count: u64, name: u32) -> Found\n    ensures { found result ≡ answer (of_opened place count (looking_up name))",
        "struct At { place: u64, count: u64 }\nimpl At {\npub fn lookup(self, s: &[u8], name: u32) -> Found\n    ensures { found result ≡ answer (of_opened self.place self.count (looking_up name))",
        &[],
    ),
    (
        FILE,
        "answer (of_opened f.entry.place f.entry.count (looking_up name))",
        "answer (looking_up name)",
        &["toy_file::file::lookup: it is given an opened file's place, but its ensures is not of it"],
    ),
    (
        CAPI,
        "answer (looking_up name)",
        "answer (of_opened 0 0 (looking_up name))",
        &["jt_toy_lookup: it is given no opened file's place, but its ensures is of one"],
    ),
    (
        FILE_SPEC,
        "answer opening",
        "answer judging",
        &["toy_file::file::open: its ensures cites toy_file.File.judging, but constructor open_file in Toy.antt is toy_file.Opened.opening"],
    ),
    (
        FILE,
        "result ≡ opened_file s.entry",
        "result ≡ s",
        &["toy_file::file::open: its ensures cites no definition, but constructor open_file in Toy.antt is toy_file.Opened.opening"],
    ),
    (
        FILE,
        "    ensures { result ≡ opened_file s.entry }\n",
        "",
        &["toy_file::file::open: its ensures cites no definition, but constructor open_file in Toy.antt is toy_file.Opened.opening"],
    ),
    (
        SPEC,
        "call fields = filling header_reading",
        "call fields = filling judging",
        &["toy::lookup::read_header: its ensures cites toy.Lookup.header, but constructor fields in Toy.antt is toy.Judge.judging"],
    ),
    (
        SPEC,
        "header as header_reading",
        "looking_up as header_reading",
        &["toy::lookup::read_header: its ensures cites toy.Lookup.header, but constructor fields in Toy.antt is toy.Lookup.looking_up"],
    ),
];

/// Tails that are told by another extent than the format's, by none, or by a call that is not judging.
const TAILS: [Change; 6] = [
    (
        JUDGE,
        "verdict_of judging toy_extent",
        "verdict_of judging seeming",
        &["toy::judge::judge: its ensures tells the tail by toy.seeming, but constructor judge in Toy.antt by toy.Judge.extent_of"],
    ),
    (
        JUDGE,
        "verdict_of judging toy_extent",
        "verdict_of judging (λ x. 0)",
        &["toy::judge::judge: its ensures tells the tail by toy.λ, but constructor judge in Toy.antt by toy.Judge.extent_of"],
    ),
    (
        JUDGE,
        "verdict_of judging toy_extent",
        "answer judging",
        &["toy::judge::judge: its ensures tells the tail by no extent, but constructor judge in Toy.antt by toy.Judge.extent_of"],
    ),
    (
        CAPI,
        "Rattle.toy.specs.Judge.{extent_of}",
        "Rattle.other.specs.Judge.{extent_of}",
        &["jt_toy_judge: its ensures tells the tail by other.Judge.extent_of, but constructor judge in Toy.antt by toy.Judge.extent_of"],
    ),
    (
        CAPI,
        "as_item (answer (looking_up name) s.now",
        "as_item (verdict_of (looking_up name) extent_of s.now",
        &["jt_toy_lookup: its ensures tells the tail by toy.Judge.extent_of, but constructor lookup in Toy.antt by no extent"],
    ),
    (
        SPEC,
        "; extent = extent_of }",
        " }",
        &[
            "toy::judge::judge: its ensures tells the tail by toy.Judge.extent_of, but constructor judge in Toy.antt by no extent",
            "jt_toy_judge: its ensures tells the tail by toy.Judge.extent_of, but constructor judge in Toy.antt by no extent",
        ],
    ),
];

/// Clauses of another kind or by a name of their own, and words of clauses that no definition has, but a function.
const CLAUSES: [Change; 8] = [
    (
        JUDGE,
        "    ensures { verdict result",
        "    requires judged { verdict result",
        &[
            "toy::judge::judge: its ensures cites no definition, but constructor judge in Toy.antt is toy.Judge.judging",
            "toy::judge::judge: its ensures tells the tail by no extent, but constructor judge in Toy.antt by toy.Judge.extent_of",
        ],
    ),
    (
        LOOKUP,
        "requires unused_answer { answer unused }",
        "ensures unused_answer { answer unused }",
        &["toy::lookup::lookup: its ensures cites toy.unused and toy.Lookup.looking_up, but constructor lookup in Toy.antt is toy.Lookup.looking_up"],
    ),
    (
        LOOKUP,
        "ensures result_value { found result ≡ map_answer length (answer (looking_up name)",
        "ensures result_value { found result ≡ map_answer length (answer (found name)",
        &["toy::lookup::lookup: its ensures cites toy.Lookup.found and toy.Lookup.looking_up, but constructor lookup in Toy.antt is toy.Lookup.looking_up"],
    ),
    (
        JUDGE,
        "ghost use Rattle.reading.specs.Verdict.{verdict_of};\n",
        "",
        &[
            "toy::judge::judge: its ensures cites no definition, but constructor judge in Toy.antt is toy.Judge.judging",
            "toy::judge::judge: its ensures tells the tail by no extent, but constructor judge in Toy.antt by toy.Judge.extent_of",
        ],
    ),
    (
        LOOKUP,
        "Lookup.{looking_up, header as header_fields",
        "Lookup.{header as header_fields",
        &[
            "toy::lookup::lookup: its ensures cites toy.looking_up, but constructor lookup in Toy.antt is toy.Lookup.looking_up",
            "toy::lookup::data_part: its ensures cites toy.looking_up, but constructor lookup in Toy.antt is toy.Lookup.looking_up",
        ],
    ),
    (
        OPENED,
        "ghost use Rattle.toy_file.specs.Opened.{of_opened};\n",
        "",
        &[
            "toy_file::opened::lookup: it is given an opened file's place, but its ensures is not of it",
            "toy_file::opened::lookup: its ensures cites toy_file.of_opened, but constructor lookup in Toy.antt is toy.Lookup.looking_up",
        ],
    ),
    (
        JUDGE,
        "ghost use Rattle.toy.specs.Judge.{judging, verdict}",
        "use Rattle.toy.specs.Judge.{judging, verdict}",
        &["toy::judge::judge: its ensures cites toy.judging, but constructor judge in Toy.antt is toy.Judge.judging"],
    ),
    (
        JUDGE,
        "Rattle.toy.specs.Judge.{judging, verdict}",
        "Rattle·toy·specs.specs.Judge.{judging, verdict}",
        &["toy::judge::judge: its ensures cites Rattle·toy·specs.specs.Judge.judging, but constructor judge in Toy.antt is toy.Judge.judging"],
    ),
];

/// Names that are not there, or too often, and constructors without names or without a definition.
const NAMES: [Change; 12] = [
    (
        SPEC,
        "-- toy::lookup::read_header",
        "-- toy::lookup::read_header, toy::lookup::read_trailer",
        &["constructor fields in Toy.antt: toy::lookup::read_trailer is no public function that is lent bytes"],
    ),
    (
        SPEC,
        "-- toy::lookup::read_header",
        "-- toy::lookup::read_header, toy::judge::number",
        &["constructor fields in Toy.antt: toy::judge::number is no public function that is lent bytes"],
    ),
    (
        SPEC,
        "  -- toy_file::file::open\n",
        "  -- opening\n",
        &[
            "constructor open_file in Toy.antt: names no function",
            "toy_file::file::open: it is lent bytes, but neither a constructor nor tests/calls/no-reading-calls.txt names it",
        ],
    ),
    (
        SPEC,
        "  fields : Call\n",
        "  fields more : Call\n",
        &["constructor more in Toy.antt: has no clause that gives its definition"],
    ),
    (
        SPEC,
        "  open_file : Call\n",
        "  open_file : Call\n  again : Call\n",
        &["constructor again in Toy.antt: has no clause that gives its definition"],
    ),
    (
        SPEC,
        "call : Call → ReadingCall",
        "call : Call → Tests",
        &[
            "constructor judge in Toy.antt: has no clause that gives its definition",
            "constructor fields in Toy.antt: has no clause that gives its definition",
            "constructor open_file in Toy.antt: has no clause that gives its definition",
            "constructor of in Toy.antt: has no clause that gives its definition",
            "constructor opened in Toy.antt: has no clause that gives its definition",
        ],
    ),
    (
        SPEC,
        "  of : TagCall",
        "  -- toy::lookup::lookup\n  of : TagCall",
        &[
            "constructor of in Toy.antt: hands its calls on and yet names functions",
            "toy::lookup::lookup: it is named more than once: constructor lookup in Toy.antt, constructor of in Toy.antt",
        ],
    ),
    (
        SPEC,
        "-- toy::judge::judge, jt_toy_judge",
        "-- toy::judge::judge, jt_toy_judge, toy_write::write::write",
        &[
            "toy_write::write::write: it is named more than once: constructor judge in Toy.antt, tests/calls/no-reading-calls.txt",
            "toy_write::write::write: its ensures cites toy_write.Write.writing, but constructor judge in Toy.antt is toy.Judge.judging",
            "toy_write::write::write: its ensures tells the tail by no extent, but constructor judge in Toy.antt by toy.Judge.extent_of",
        ],
    ),
    (
        LIST,
        "jt_toy_write: it writes a file",
        "jt_toy_write: it writes a file\njt_toy_write: it writes a file",
        &["jt_toy_write: it is named more than once: tests/calls/no-reading-calls.txt, tests/calls/no-reading-calls.txt"],
    ),
    (
        LIST,
        "jt_toy_write: it writes a file",
        "jt_toy_write:",
        &["tests/calls/no-reading-calls.txt: jt_toy_write has no reason"],
    ),
    (
        LIST,
        "jt_toy_write: it writes a file",
        "jt_toy_write: it writes a file\njt_toy_begin: it writes a file",
        &["tests/calls/no-reading-calls.txt: jt_toy_begin is no public function that is lent bytes"],
    ),
    (
        HEADER,
        "jt_written jt_toy_write(const uint8_t *data, size_t data_len, uint8_t *out, size_t room);\n",
        "",
        &["jt_toy_write: it is lent bytes, but include/jintarueng.h does not declare it"],
    ),
];
