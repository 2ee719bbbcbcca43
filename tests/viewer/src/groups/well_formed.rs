//! Pictures of files with strange names and texts, and the reader of XML itself.

use crate::drawing::{check_drawn, draw, Paper, Wish, PLAIN};
use crate::findings::Findings;
use crate::program::Program;
use crate::scratch::Scratch;
use crate::xml;
use compare::abif::generate::{plain_file, Content, Order};
use compare::abif::reader::Tag;
use compare::gtc::generate as gtc;
use compare::report::Group;
use compare::sff::draft;
use std::ffi::OsString;
use std::os::unix::ffi::OsStringExt;

const NAMES: [&[u8]; 25] = [
    b"<&\"'>",
    b"]]>",
    b"-->",
    b"&amp;",
    b"&#0;",
    b"\x01\x1F\x7F",
    b"line\nline\ttab",
    b"\xFF",
    b"\xC3",
    b"\xED\xA0\x80",
    b"\xF4\x90\x80\x80",
    b"\xC0\xAF",
    b"\xEF\xBF\xBF\xEF\xBF\xBE",
    b"na\xC3\xAFve \xE2\x82\xAC",
    b"\xC2\x80\xC2\x9F\xC2\xA0",
    b"\xD8\x9C\xD8\x9D",
    b"\xE2\x80\x8B\xE2\x80\x8F\xE2\x80\x90",
    b"\xE2\x80\xA8\xE2\x80\xAE\xE2\x80\xAF",
    b"\xE2\x81\xA0\xE2\x81\xA9\xE2\x81\xAA",
    b"\xEF\xBB\xBF\xEF\xBF\xB9\xEF\xBF\xBB",
    b"\xEF\xB7\x90\xEF\xB7\xAF\xEF\xB7\xB0",
    b"\xF0\x9F\xBF\xBE\xF4\x8F\xBF\xBF",
    b"\xF0\x9F\xA7\xAC\xF0\x90\x80",
    b"\xE8\xA9\xA6\xE6\x96\x99\xD8\xB9",
    b"\xE0\x80\x80\xF0\x80\x80\x80\xF8",
];

const ILL_FORMED: [&str; 30] = [
    "",
    "text",
    "<a>",
    "<a></b>",
    "<a><b></a></b>",
    "<a/><b/>",
    "<a/>text",
    "<a b=c/>",
    "<a b='c'/>",
    "<a b=\"c/>",
    "<a b=\"<\"/>",
    "<a b=\"&\"/>",
    "<a b=\"&x;\"/>",
    "<a b=\"1\" b=\"2\"/>",
    "<a b=\"1\"c=\"2\"/>",
    "<a b/>",
    "<a>&</a>",
    "<a>&amp</a>",
    "<a>&#0;</a>",
    "<a>&#x1F;</a>",
    "<a>&#xD800;</a>",
    "<a>]]></a>",
    "<a>\x01</a>",
    "<a>\x7F</a>",
    "<a>\r</a>",
    "<a><!-- -- --></a>",
    "<a><!-- </a>",
    "<1/>",
    "< a/>",
    "<a/",
];

const WELL_FORMED: [&str; 5] = [
    "<?xml version=\"1.0\"?>\n<!-- a -->\n<a/>\n",
    "<a b=\"&lt;&amp;&quot;&apos;&gt;\">&lt;&#233;&#x20AC;</a>",
    "<a ><b  c=\"1\"\n d=\"2\" ></b >text<!----><e/></a >",
    "<a-b:c.d _e=\"\"/>",
    "<a>é'\"></a>",
];

pub fn well_formed(group: &mut Group) {
    the_reader(group);
    for name in NAMES {
        for bytes in named_files() {
            one(group, name, &bytes);
        }
        for bytes in [abif_text(name), sff_text(name), gtc_text(name)] {
            one(group, b"plain", &bytes);
            one(group, b"plain", &bytes[..bytes.len() - 1]);
        }
    }
}

fn the_reader(group: &mut Group) {
    for text in ILL_FORMED {
        let read = xml::read(text.as_bytes());
        group.check(read.is_err(), text.as_bytes(), || {
            format!("{text:?} is well-formed")
        });
    }
    for text in WELL_FORMED {
        let read = xml::read(text.as_bytes());
        group.check(read.is_ok(), text.as_bytes(), || {
            format!("{text:?}: {read:?}")
        });
    }
    let bytes = xml::read(b"<a>\xFF</a>");
    group.check(bytes.is_err(), &[], || "bytes of no text".to_string());
}

fn named_files() -> Vec<Vec<u8>> {
    vec![
        compare::abif::samples::one_inline_item(),
        compare::sff::samples::one_read(),
        compare::gtc::samples::three_snps(),
        b"gtc".to_vec(),
        b"no format".to_vec(),
    ]
}

fn one(group: &mut Group, name: &[u8], bytes: &[u8]) {
    let scratch = Scratch::new();
    let file = scratch.write(OsString::from_vec(name.to_vec()), bytes);
    let mut findings = Findings::default();
    for (picture, wish) in [("picture", PLAIN), ("p.html", Wish::pages(Paper::A4))] {
        let drawn = draw(&Program::plain(), &file, &scratch.path(picture), wish);
        check_drawn(&mut findings, &drawn, &file, bytes, wish);
    }
    findings.report(
        group,
        &format!("a file named {:?}", name.escape_ascii().to_string()),
        bytes,
    );
}

// The text wherever a run has one, and as its bases.
fn abif_text(text: &[u8]) -> Vec<u8> {
    let counted = [&[text.len() as u8], text].concat();
    let string = |name, number| (Tag::new(name, number), Content::listed(18, counted.clone()));
    let places = (0..text.len() as i16).flat_map(i16::to_be_bytes).collect();
    let mut items = vec![
        string(b"SMPL", 1),
        string(b"DyeN", 1),
        string(b"DyeN", 2),
        string(b"TUBE", 1),
        string(b"CMNT", 1),
        (Tag::new(b"FWO_", 1), Content::listed(2, b"GATC".to_vec())),
        (Tag::new(b"PBAS", 1), Content::listed(2, text.to_vec())),
        (Tag::new(b"PLOC", 1), Content::listed(4, places)),
    ];
    for number in 9..=12 {
        items.push((Tag::new(b"DATA", number), Content::listed(4, vec![1; 60])));
    }
    plain_file(&items, Order::DirectoryFirst).bytes()
}

// The text as a read's name, its letters and the flow letters.
fn sff_text(text: &[u8]) -> Vec<u8> {
    let mut read = draft::Read::new(text, 20, &vec![1; text.len()]);
    read.letters = text.to_vec();
    let mut file = draft::Draft::new(20, 4, vec![read], None);
    file.letters[..text.len()].copy_from_slice(text);
    file.bytes()
}

fn gtc_text(text: &[u8]) -> Vec<u8> {
    let mut items = gtc::snp_items(&[1, 2, 3].map(gtc::snp_of_code));
    for id in [10, 11, 12, 100, 101, 200, 201, 300, 1016] {
        items.push((id, gtc::text(text)));
    }
    items.push((1005, gtc::scanner(text, text, text)));
    gtc::plain_file(&items).bytes()
}
