//! The functions that the C header declares.

use crate::words::words;

const FILE: &str = "const uint8_t *bytes , size_t len";

pub struct Declared {
    pub name: String,
    pub takes_a_file: bool,
}

pub fn functions(text: &str) -> Vec<Declared> {
    let code = without_comments(text);
    let mut found = Vec::new();
    for declaration in code.split(';') {
        let words = words(declaration);
        let opening = words.iter().position(|word| *word == "(").unwrap_or(0);
        let (before, parameters) = words.split_at(opening);
        if let Some(name) = before.last().filter(|name| name.starts_with("jt_")) {
            found.push(Declared {
                name: name.to_string(),
                takes_a_file: parameters.join(" ").contains(FILE),
            });
        }
    }
    found
}

fn without_comments(text: &str) -> String {
    let mut pieces = text.split("/*");
    let first = pieces.next().unwrap_or("").to_string();
    pieces.fold(first, |code, piece| {
        code + piece.split_once("*/").map_or("", |(_, behind)| behind)
    })
}
