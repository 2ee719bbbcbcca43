//! Files made from the rows of a profile.

use super::row::{Numbers, Row, RowType};
use crate::abif::generate::{element_size, plain_file, Content, ORDERS};
use crate::abif::reader::{Tag, Type};
use crate::random::Random;

pub type Items = Vec<(Tag, Content)>;

const USER_CODE: i16 = 1024;
/// The count of an item whose row leaves it open.
const OPEN_COUNT: i32 = 3;
/// The numbers that stand in a file for a row of all numbers.
const SOME_NUMBERS: [i32; 3] = [1, 2, 7];
const ARRANGEMENTS: usize = 3;

/// The items that a profile requires.
pub fn required_items(rows: &[Row]) -> Items {
    let required = rows.iter().filter(|row| !row.is_optional);
    required
        .map(|row| (row.first_tag(), row_content(row.row_type)))
        .collect()
}

/// The items of all rows, the optional ones too.
pub fn all_items(rows: &[Row]) -> Items {
    let mut items = Items::new();
    for row in rows {
        for tag in some_tags(row) {
            items.push((tag, row_content(row.row_type)));
        }
    }
    items
}

/// The row's tag, or some of the tags that it stands for.
pub fn some_tags(row: &Row) -> Vec<Tag> {
    match row.numbers {
        Numbers::Only(number) => vec![Tag::new(row.name, number)],
        Numbers::FromOne => SOME_NUMBERS
            .iter()
            .map(|&number| Tag::new(row.name, number))
            .collect(),
    }
}

/// An item as a row of this type has it.
pub fn row_content(row_type: RowType) -> Content {
    let code = row_type.code().unwrap_or(USER_CODE);
    content(code, row_type.count().unwrap_or(OPEN_COUNT))
}

/// An item of this type and count; what a raw type's count says about its data is left open.
pub fn content(code: i16, count: i32) -> Content {
    if Type::from_code(code) == Some(Type::Raw) {
        return Content::raw(code, 2, count, vec![b'r'; 6]);
    }
    Content::listed(code, vec![b'a'; element_size(code) * count as usize])
}

/// Makes files in all shapes in turn: the entries ascending, descending and in any order, with the
/// directory in every position.
pub struct Shapes {
    random: Random,
    made: usize,
}

impl Shapes {
    pub fn new(seed: u64) -> Shapes {
        Shapes {
            random: Random::new(seed),
            made: 0,
        }
    }

    pub fn file(&mut self, items: &[(Tag, Content)]) -> Vec<u8> {
        let mut items = items.to_vec();
        items.sort_by_key(|(tag, _)| (tag.name, tag.number));
        match self.made % ARRANGEMENTS {
            0 => {}
            1 => items.reverse(),
            _ => self.random.shuffle(&mut items),
        }
        let order = ORDERS[self.made / ARRANGEMENTS % ORDERS.len()];
        self.made += 1;
        plain_file(&items, order).bytes()
    }

    /// The items in every shape.
    pub fn files(&mut self, items: &[(Tag, Content)]) -> Vec<Vec<u8>> {
        let shapes = ARRANGEMENTS * ORDERS.len();
        (0..shapes).map(|_| self.file(items)).collect()
    }
}
