//! Files with the tags of the printed tables, right and wrong.

use super::checked::added_later;
use super::files::Items;
use compare::abif::generate::{all_codes, element_size, plain_file, Content, Order, ORDERS};
use compare::abif::reader::{Tag, Type};
use compare::abif::tags::profiles;
use compare::abif::tags::row::{Row, RowType};
use compare::random::Random;

const USER_CODE: i16 = 1024;
const THUMB: i16 = 12;
/// The count of an item whose row leaves it open.
const OPEN_COUNT: usize = 3;
/// Tags that no table has, some of them with bytes that are not shown.
const STRANGE: [(&[u8; 4], i32); 9] = [
    (b"OvrI", 1),
    (b"OvrI", 2),
    (b"Ovrl", 0),
    (b"CMNT", -1),
    (b"DATA", 13),
    (b"\x1B[2J", 1),
    (b"\xFF\0: ", i32::MIN),
    (b"    ", i32::MAX),
    (b"dATA", 1),
];
/// What the tags say that tell the instrument and its software.
const SAYINGS: [(&[u8; 4], i32, RowType); 5] = [
    (b"HCFG", 3, RowType::CString),
    (b"MODL", 1, RowType::FourChars),
    (b"RunN", 1, RowType::CString),
    (b"MCHN", 1, RowType::PString),
    (b"SVER", 1, RowType::PString),
];
const TEXTS: [&[u8]; 16] = [
    b"3730xl",
    b"3130",
    b"3100",
    b"310 ",
    b"",
    b"  ",
    b"Run_3130xl_2008-11-06",
    b"Run_13130_31300",
    b"x3730-3730y",
    b"3.0",
    b"2.0",
    b"3.1",
    b"1.0bc2",
    b"v3",
    b"4\xFF",
    b"\x1B[2J3100",
];

/// The items that a profile requires.
pub fn required_items(profile: u64) -> Items {
    let rows = rows(profile).iter().filter(|row| !row.is_optional);
    rows.map(|row| (row.first_tag(), content_of(row.row_type)))
        .collect()
}

/// The items of all rows of a profile, the optional ones too.
pub fn all_items(profile: u64) -> Items {
    let rows = rows(profile).iter();
    rows.map(|row| (row.first_tag(), content_of(row.row_type)))
        .collect()
}

fn rows(profile: u64) -> &'static [Row] {
    profiles::rows_of(profile).unwrap_or_default()
}

/// An item as a row of this type has it.
fn content_of(row_type: RowType) -> Content {
    let code = row_type.code().unwrap_or(USER_CODE);
    content(
        code,
        row_type.count().map_or(OPEN_COUNT, |count| count as usize),
    )
}

/// An item of this type and count.
pub fn content(code: i16, count: usize) -> Content {
    if Type::from_code(code) == Some(Type::Raw) {
        return Content::raw(code, 2, count as i32, vec![b'r'; 6]);
    }
    Content::listed(code, vec![b'a'; element_size(code) * count])
}

/// An item of a text type, or of chars, that says this.
pub fn text(row_type: RowType, said: &[u8]) -> Content {
    match row_type {
        RowType::PString => Content::listed(18, [&[said.len() as u8], said].concat()),
        RowType::CString => Content::listed(19, [said, &[0]].concat()),
        _ => Content::listed(2, said.to_vec()),
    }
}

/// The items with this one in the place of its tag's, or behind them.
pub fn with(mut items: Items, tag: Tag, content: Content) -> Items {
    items.retain(|item| item.0 != tag);
    items.push((tag, content));
    items
}

/// The file with these items, in any order.
pub fn file(random: &mut Random, mut items: Items) -> Vec<u8> {
    random.shuffle(&mut items);
    plain_file(&items, random.pick(&ORDERS)).bytes()
}

/// Every tag of the tables and some of none, each with a type that no table has.
pub fn every_tag() -> Vec<u8> {
    let tags = more_tags().into_iter();
    let items = tags.fold(Items::new(), |items, tag| {
        with(items, tag, content(THUMB, 1))
    });
    plain_file(&items, Order::DirectoryFirst).bytes()
}

/// A profile's items, with some left out, some of other types and counts, and some of elsewhere.
pub fn random_file(random: &mut Random, profile: u64) -> Vec<u8> {
    let mut items = all_items(profile);
    let often = random.pick(&[3, 20, 200]);
    items.retain(|_| !random.one_in(often));
    for (_, content) in &mut items {
        if random.one_in(often) {
            *content = other_content(random, content.type_code);
        }
    }
    for tag in more_tags() {
        if random.one_in(often) {
            let code = random.pick(&all_codes());
            items = with(items, tag, other_content(random, code));
        }
    }
    for (name, number, row_type) in SAYINGS {
        if random.one_in(2) {
            let said = random.pick(&TEXTS);
            items = with(items, Tag::new(name, number), text(row_type, said));
        }
    }
    file(random, items)
}

// Of the same type with another count, or of another type.
fn other_content(random: &mut Random, code: i16) -> Content {
    let code = if random.one_in(2) {
        code
    } else {
        random.pick(&all_codes())
    };
    content(code, random.below(6))
}

// Tags of all profiles, of the analysis programs and of none.
fn more_tags() -> Vec<Tag> {
    let rows = profiles::all().flat_map(|(_, rows)| rows);
    let mut tags: Vec<Tag> = rows.map(Row::first_tag).collect();
    tags.extend(added_later());
    tags.extend(STRANGE.map(|(name, number)| Tag::new(name, number)));
    tags
}
