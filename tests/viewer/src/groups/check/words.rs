//! Each kind of finding, word for word.

use super::asked::Asked;
use crate::abif::files::Items;
use crate::abif::tagged::{content, file, required_items, with};
use crate::scratch::Scratch;
use compare::abif::reader::Tag;
use compare::random::Random;
use compare::report::Group;

const CHAR: i16 = 2;
const SHORT: i16 = 4;
const LONG: i16 = 5;
const FLOAT: i16 = 7;
const P_STRING: i16 = 18;
const C_STRING: i16 = 19;

/// Required tags that a file of this profile lacks.
const MISSING: [(u64, &[u8; 4], i32, &str); 4] = [
    (1, b"APFN", 2, "Sequencing Analysis parameters file name"),
    (4, b"PANL", 1, "GeneMapper panel name"),
    (6, b"DyeN", 5, "dye 5 name"),
    (7, b"DATA", 8, "temperature, measured (degrees C)"),
];

/// A tag that a file of a profile has otherwise than its table, by its type and count, and what is told.
struct Otherwise {
    profile: u64,
    tag: Tag,
    code: i16,
    count: usize,
    told: &'static str,
}

const OTHERWISE: [Otherwise; 12] = [
    Otherwise {
        profile: 3,
        tag: Tag::new(b"RUND", 1),
        code: LONG,
        count: 1,
        told: "RUND 1, run start date: another type, long where the table has date",
    },
    Otherwise {
        profile: 3,
        tag: Tag::new(b"SCAN", 1),
        code: LONG,
        count: 2,
        told: "SCAN 1, number of scans: another type, 2 of them where the table has 1",
    },
    Otherwise {
        profile: 3,
        tag: Tag::new(b"Scan", 1),
        code: SHORT,
        count: 0,
        told: "Scan 1, number of scans (legacy, use SCAN): another type, 0 of them where the table has 1",
    },
    Otherwise {
        profile: 1,
        tag: Tag::new(b"MODL", 1),
        code: CHAR,
        count: 3,
        told: "MODL 1, model number: another type, 3 of them where the table has 4",
    },
    Otherwise {
        profile: 5,
        tag: Tag::new(b"CpEP", 1),
        code: CHAR,
        count: 1,
        told: "CpEP 1, whether it is a capillary machine: another type, char where the table has byte",
    },
    Otherwise {
        profile: 7,
        tag: Tag::new(b"Rate", 1),
        code: SHORT,
        count: 1,
        told: "Rate 1, scan rate: another type, short where the table has user",
    },
    Otherwise {
        profile: 7,
        tag: Tag::new(b"Scal", 1),
        code: i16::MAX,
        count: 1,
        told: "Scal 1, rescaling divisor for color data: another type, user where the table has float",
    },
    Otherwise {
        profile: 8,
        tag: Tag::new(b"Ovrl", 70_000),
        code: SHORT,
        count: 2,
        told: "Ovrl 70000, scans with color data values above 32767: another type, short where the table has long array",
    },
    Otherwise {
        profile: 2,
        tag: Tag::new(b"CMNT", 900),
        code: SHORT,
        count: 3,
        told: "CMNT 900, comment about the sample: another type, short where the table has pString",
    },
    Otherwise {
        profile: 1,
        tag: Tag::new(b"CMNT", 2),
        code: P_STRING,
        count: 3,
        told: "CMNT 2, comment about the sample: not in the profile, but in 2, 4, 6 and 8",
    },
    Otherwise {
        profile: 1,
        tag: Tag::new(b"HCFG", 1),
        code: C_STRING,
        count: 3,
        told: "HCFG 1, instrument class: not in the profile, but in 3, 4, 7 and 8",
    },
    Otherwise {
        profile: 8,
        tag: Tag::new(b"\x1B[2J", -7),
        code: SHORT,
        count: 1,
        told: ".[2J -7: not in the profile, and in no other table",
    },
];

pub fn words(group: &mut Group) {
    for (profile, name, number, description) in MISSING {
        let mut items = required_items(profile);
        items.retain(|item| item.0 != Tag::new(name, number));
        let tag = String::from_utf8_lossy(name);
        let told = format!("{tag} {number}, {description}: missing");
        expect(group, profile, items, &[&told]);
    }
    for it in OTHERWISE {
        let items = with(
            required_items(it.profile),
            it.tag,
            content(it.code, it.count),
        );
        expect(group, it.profile, items, &[it.told]);
    }
    capital_i(group);
    analysed(group);
    one_analysed(group);
}

// What stands between the profile's line and the last one, which counts it.
fn expect(group: &mut Group, profile: u64, items: Items, expected: &[&str]) {
    let asked = Asked::against(profile, file(&mut Random::new(92), items));
    let output = asked.run(&Scratch::new());
    let printed = output.stdout_text();
    let mut lines: Vec<&str> = printed.lines().skip(2).map(str::trim_start).collect();
    let last = lines.pop().unwrap_or_default();
    let is_counted = last.contains(" finding") && output.status == Some(1);
    group.input();
    group.check(lines == expected && is_counted, &asked.bytes, || {
        format!("profile {profile}: {printed}")
    });
}

// The name with a capital I, which stands in no table's first column.
fn capital_i(group: &mut Group) {
    let items = [1, 2].into_iter().fold(required_items(8), |items, number| {
        with(items, Tag::new(b"OvrI", number), content(LONG, 3))
    });
    let expected = [
        "OvrI 1: not in the profile, and in no other table",
        "OvrI 2: not in the profile, and in no other table",
        "OvrI: the tables' Name columns print Ovrl, with a small L, and two of their descriptions OvrI, with a capital \
         I, which instruments are likely to write",
    ];
    expect(group, 8, items, &expected);
}

// What the analysis programs add stands behind what matters.
fn analysed(group: &mut Group) {
    let tags = [(b"phXX", 1), (b"AEPt", 1), (b"PBAS", 2), (b"DATA", 9)];
    let items = tags
        .into_iter()
        .fold(required_items(7), |items, (name, number)| {
            with(items, Tag::new(name, number), content(SHORT, 3))
        });
    let expected = [
        "phXX 1: not in the profile, and in no other table",
        "3 tags of the analysis programs, which add them after the run: not in the profile, as expected of an analysed \
         run",
        "AEPt 1, stop point (original): not in the profile",
        "DATA 9, channel 1 analyzed data: not in the profile",
        "PBAS 2, basecalled sequence: not in the profile",
    ];
    expect(group, 7, items, &expected);
}

fn one_analysed(group: &mut Group) {
    let items = with(required_items(7), Tag::new(b"phTR", 2), content(FLOAT, 1));
    let expected = [
        "1 tag of the analysis programs, which add it after the run: not in the profile, as expected of an analysed run",
        "phTR 2, trim probability threshold: not in the profile",
    ];
    expect(group, 7, items, &expected);
}
