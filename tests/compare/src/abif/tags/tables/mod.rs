//! The printed tables of tags, row by row in their printed order.

mod of_3100;
mod of_3130;
mod of_3730;

use super::row::Row;

pub const TABLES: [&[Row]; 8] = [
    &of_3100::TABLE_1,
    &of_3100::TABLE_2,
    &of_3130::TABLE_3,
    &of_3130::TABLE_4,
    &of_3730::TABLE_5,
    &of_3730::TABLE_6,
    &of_3730::TABLE_7,
    &of_3730::TABLE_8,
];
