//! Which profile a file is taken for: by each of the tags that tell it, by its name, and by what is found.

use super::asked::Asked;
use crate::abif::files::Items;
use crate::abif::guessed::profile_words;
use crate::abif::tagged::{content, required_items, text};
use crate::scratch::Scratch;
use compare::abif::generate::{plain_file, Content, Order};
use compare::abif::reader::Tag;
use compare::abif::tags::row::RowType::{self, CString, FourChars, PString};
use compare::report::Group;

const ONLY_AB1: &str = "FWO_ 1 stands in ab1 tables alone";
const ONLY_FSA: &str = "SpNm 1 stands in fsa tables alone";

pub fn guesses(group: &mut Group) {
    by_instrument(group);
    by_names_of_users(group);
    by_kind(group);
    by_software(group);
    closest(group);
}

// The file with this name and these items, the profile, and why.
fn expect(group: &mut Group, name: &'static str, items: Items, profile: u64, reason: &str) {
    let asked = Asked {
        name,
        bytes: plain_file(&items, Order::DirectoryFirst).bytes(),
        profile: None,
    };
    let output = asked.run(&Scratch::new());
    let printed = output.stdout_text();
    let line = printed.lines().nth(1).unwrap_or_default();
    let expected = format!("taken for {}, since {reason}", profile_words(profile));
    group.check(line == expected, &asked.bytes, || {
        format!("{line:?} for {expected:?}")
    });
    asked.compare().report(group, reason, &asked.bytes);
}

fn says(name: &[u8; 4], number: i32, row_type: RowType, said: &[u8]) -> (Tag, Content) {
    (Tag::new(name, number), text(row_type, said))
}

fn official(said: &[u8]) -> (Tag, Content) {
    says(b"HCFG", 3, CString, said)
}

fn model(said: &[u8]) -> (Tag, Content) {
    says(b"MODL", 1, FourChars, said)
}

fn software(said: &[u8]) -> (Tag, Content) {
    says(b"SVER", 1, PString, said)
}

fn only_ab1() -> (Tag, Content) {
    says(b"FWO_", 1, FourChars, b"GATC")
}

fn only_fsa() -> (Tag, Content) {
    says(b"SpNm", 1, PString, b"ladder")
}

fn by_instrument(group: &mut Group) {
    let items = vec![model(b"3100"), only_ab1()];
    expect(
        group,
        "a",
        items,
        1,
        &format!("MODL 1 says 3100; {ONLY_AB1}"),
    );
    let items = vec![model(b"3100"), only_fsa(), official(b"3130xl")];
    expect(
        group,
        "a",
        items,
        4,
        &format!("HCFG 3 says 3130xl; {ONLY_FSA}"),
    );
}

fn by_names_of_users(group: &mut Group) {
    let items = vec![says(b"RunN", 1, CString, b"Run_3130xl_2008"), only_ab1()];
    expect(
        group,
        "a",
        items,
        3,
        &format!("RunN 1 says Run_3130xl_2008; {ONLY_AB1}"),
    );
    let items = vec![says(b"MCHN", 1, PString, b"AB3100-1"), only_fsa()];
    expect(
        group,
        "a",
        items,
        2,
        &format!("MCHN 1 says AB3100-1; {ONLY_FSA}"),
    );
    let items = vec![says(b"MCHN", 1, PString, b"\x1B[2J3130"), only_fsa()];
    expect(
        group,
        "a",
        items,
        4,
        &format!("MCHN 1 says \u{FFFD}[2J3130; {ONLY_FSA}"),
    );
    let long = [b"3130 ", &[b'x'; 300][..]].concat();
    let items = vec![says(b"RunN", 1, CString, &long), only_fsa()];
    let told = String::from_utf8_lossy(&long[..255]);
    expect(
        group,
        "a",
        items,
        4,
        &format!("RunN 1 says {told}; {ONLY_FSA}"),
    );
}

// The tags come before the name, which decides only where they do not.
fn by_kind(group: &mut Group) {
    let items = vec![model(b"3130"), only_ab1()];
    expect(
        group,
        "a.fsa",
        items,
        3,
        &format!("MODL 1 says 3130; {ONLY_AB1}"),
    );
    let items = vec![only_ab1(), model(b"3130"), only_fsa()];
    let reason = "MODL 1 says 3130; the file's name ends in .fsa";
    expect(group, "a.FSA", items.clone(), 4, reason);
    let reason = "MODL 1 says 3130; the file's name ends in .ab1";
    expect(group, "a.fsa.ab1", items, 3, reason);
    let sample_name = says(b"SMPL", 1, PString, b"sample");
    let items = vec![only_fsa(), sample_name, model(b"3130"), only_ab1()];
    let reason = "MODL 1 says 3130; 2 tags, SMPL 1 the first, stand in ab1 tables alone";
    expect(group, "a.fsa", items, 3, reason);
}

fn by_software(group: &mut Group) {
    for (said, profile) in [("2.0", 6), ("1.1", 6), ("3.0", 8), ("3.1", 8), ("4.0", 8)] {
        let items = vec![model(b"3730"), software(said.as_bytes()), only_fsa()];
        let reason = format!("MODL 1 says 3730; SVER 1 says {said}; {ONLY_FSA}");
        expect(group, "a", items, profile, &reason);
    }
    let items = vec![model(b"3130"), software(b"2.0"), only_fsa()];
    expect(
        group,
        "a",
        items,
        4,
        &format!("MODL 1 says 3130; {ONLY_FSA}"),
    );
}

// Where the tags and the name leave more than one, the number of findings decides.
fn closest(group: &mut Group) {
    let of = |count, findings| {
        format!(
            "of the {count} profiles that are left this is the closest, with {findings} findings; --profile takes \
             another"
        )
    };
    let none = "no tag names the instrument";
    expect(group, "a", vec![], 1, &format!("{none}; {}", of(8, 75)));
    let items = vec![model(b"310 ")];
    let reason = "MODL 1 says 310, for which there is no table; the file's name ends in .ab1";
    expect(
        group,
        "a.ab1",
        items,
        1,
        &format!("{reason}; {}", of(4, 74)),
    );
    let items = vec![model(b"35  "), official(b"3500xl"), only_fsa()];
    let reason = format!("HCFG 3 says 3500xl, for which there is no table; {ONLY_FSA}");
    expect(group, "a", items, 2, &format!("{reason}; {}", of(4, 76)));
    let items = vec![says(b"RunN", 1, CString, b"Run_31300_13100")];
    expect(group, "a", items, 1, &format!("{none}; {}", of(8, 74)));
    let mut items = required_items(7);
    items.retain(|item| item.0 != Tag::new(b"MODL", 1));
    items.push(model(b"3730"));
    let reason = "MODL 1 says 3730; 8 tags, APFN 2 the first, stand in ab1 tables alone";
    expect(group, "a", items, 7, &format!("{reason}; {}", of(2, 0)));
    let items = vec![(Tag::new(b"ANME", 1), content(19, 1))];
    let reason = format!("{none}; ANME 1 stands in fsa tables alone");
    expect(group, "a", items, 2, &format!("{reason}; {}", of(4, 76)));
}
