//! The printed text of the tables, read by a program and held against the entered rows.

use super::row::{Numbers, Row, RowType};
use super::tables::TABLES;
use std::fmt;

const COLUMNS: usize = 4;
/// Cyrillic letters that the scan shows, and the Latin ones that are meant.
const LATIN_LETTERS: [(char, char); 4] = [
    ('\u{421}', 'C'),
    ('\u{440}', 'p'),
    ('\u{415}', 'E'),
    ('\u{420}', 'P'),
];

/// A row in the words of the print.
#[derive(PartialEq, Eq)]
struct PrintedRow {
    name: String,
    numbers: String,
    row_type: String,
    is_optional: bool,
}

/// Prints for each table how many rows agree, and those that differ; tells whether all agree.
pub fn compare(text: &str) -> bool {
    let printed = printed_tables(text);
    let mut all_agree = true;
    for (index, (printed, entered)) in printed.iter().zip(TABLES).enumerate() {
        let entered: Vec<PrintedRow> = entered.iter().map(PrintedRow::from).collect();
        all_agree &= compare_table(index + 1, printed, &entered);
    }
    all_agree
}

fn compare_table(number: usize, printed: &[PrintedRow], entered: &[PrintedRow]) -> bool {
    let longer = printed.len().max(entered.len());
    let differing: Vec<usize> = (0..longer)
        .filter(|&index| printed.get(index) != entered.get(index))
        .collect();
    println!("Table {number}: {} rows agree", longer - differing.len());
    for &index in &differing {
        let [printed, entered] = [printed, entered].map(|rows| shown(rows.get(index)));
        println!("  row {}: printed {printed}, entered {entered}", index + 1);
    }
    differing.is_empty()
}

fn shown(row: Option<&PrintedRow>) -> String {
    row.map_or("nothing".to_string(), PrintedRow::to_string)
}

fn printed_tables(text: &str) -> Vec<Vec<PrintedRow>> {
    let mut tables: Vec<Vec<PrintedRow>> = TABLES.iter().map(|_| Vec::new()).collect();
    let mut current = 0;
    for line in text.lines() {
        if let Some(number) = table_number(line) {
            current = number;
        }
        let table = (1..)
            .zip(&mut tables)
            .find(|(number, _)| *number == current);
        if let (Some((_, table)), Some(row)) = (table, printed_row(line)) {
            table.push(row);
        }
    }
    tables
}

// The number in a table's title, which stands again above each of its parts.
fn table_number(line: &str) -> Option<usize> {
    let title = line.strip_prefix("Table ")?;
    title.split_whitespace().next()?.parse().ok()
}

// The scan added an empty column behind a part of Table 3, and a column of garbled text before a
// part of Table 5.
fn printed_row(line: &str) -> Option<PrintedRow> {
    let mut cells: Vec<&str> = line.split('|').map(str::trim).collect();
    while cells.last() == Some(&"") {
        cells.pop();
    }
    let row = cells.get(cells.len().checked_sub(COLUMNS)?..)?;
    let &[name, numbers, row_type, description] = row else {
        return None;
    };
    let is_heading = name == "Name" || name.starts_with("---");
    (!is_heading).then(|| PrintedRow {
        name: name.chars().map(latin).collect(),
        numbers: numbers.replace("a1", "1"),
        row_type: row_type.to_string(),
        is_optional: description.ends_with("(optional)"),
    })
}

fn latin(letter: char) -> char {
    let mut letters = LATIN_LETTERS.iter();
    letters
        .find(|(cyrillic, _)| *cyrillic == letter)
        .map_or(letter, |(_, latin)| *latin)
}

impl From<&Row> for PrintedRow {
    fn from(row: &Row) -> PrintedRow {
        PrintedRow {
            name: row.name.escape_ascii().to_string(),
            numbers: match row.numbers {
                Numbers::Only(number) => number.to_string(),
                Numbers::FromOne => "1-N".to_string(),
            },
            row_type: printed_type(row.row_type).to_string(),
            is_optional: row.is_optional,
        }
    }
}

fn printed_type(row_type: RowType) -> &'static str {
    match row_type {
        RowType::Byte => "byte",
        RowType::Char => "char",
        RowType::CharArray => "char array",
        RowType::FourChars => "char[4]",
        RowType::Short => "short",
        RowType::ShortArray => "short array",
        RowType::Long => "long",
        RowType::LongArray => "long array",
        RowType::Float => "float",
        RowType::Date => "date",
        RowType::Time => "time",
        RowType::PString => "pString",
        RowType::CString => "cString",
        RowType::User => "user",
    }
}

impl fmt::Display for PrintedRow {
    fn fmt(&self, out: &mut fmt::Formatter) -> fmt::Result {
        let optional = if self.is_optional { " (optional)" } else { "" };
        write!(
            out,
            "{} {} {}{optional}",
            self.name, self.numbers, self.row_type
        )
    }
}
