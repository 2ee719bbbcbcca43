//! The calls of a format: each constructor with the functions that its comment names, and its definition.

use crate::origins::{Origin, Origins};
use crate::words::{group, without_comments, words};

const COMMENT: &str = "--";

pub struct Constructor {
    pub name: String,
    /// The functions that the comment lines before it name.
    pub functions: Vec<String>,
    pub definition: Definition,
    /// Of judging alone: the extent in what it answers.
    pub extent: Option<Origin>,
}

pub enum Definition {
    Is(Origin),
    /// Another function of the file gives it.
    HandedOn,
    /// No clause has this constructor.
    Missing,
}

/// The top-level clauses of a definition, each with the lines that go on below it.
pub fn clauses(text: &str, name: &str) -> Vec<String> {
    let mut found: Vec<String> = Vec::new();
    let mut inside = false;
    for line in text.lines() {
        if line.starts_with([' ', '\t']) {
            if let (true, Some(clause)) = (inside, found.last_mut()) {
                clause.push('\n');
                clause.push_str(line);
            }
        } else if !line.trim().is_empty() {
            inside = words(line).first() == Some(&name);
            found.extend(inside.then(|| line.to_string()));
        }
    }
    found
}

/// The constructors of a file's calls; none where it defines no `Call`.
pub fn constructors(text: &str, own: &str) -> Vec<Constructor> {
    let blocks = blocks(text);
    if blocks.iter().all(|block| block.name != "Call") {
        return Vec::new();
    }
    let code = without_comments(text, COMMENT);
    let origins = Origins::of_specs(&code, own);
    let givers = givers(&code, &blocks);
    let judging = judging(&code, &origins);
    let mut found = Vec::new();
    for block in &blocks {
        let function = givers.iter().find(|function| function.over == block.name);
        if function.is_none() && block.name != "Call" {
            continue;
        }
        let clauses = function.map_or(Vec::new(), |function| clauses(&code, &function.name));
        for (name, functions) in &block.constructors {
            found.push(Constructor {
                name: name.clone(),
                functions: functions.clone(),
                definition: definition(name, &clauses, &origins, &givers),
                extent: judging
                    .clone()
                    .and_then(|(judging, extent)| (judging == *name).then_some(extent)),
            });
        }
    }
    found
}

/// A data type, and its constructors with the functions that their comments name.
struct Block {
    name: String,
    constructors: Vec<(String, Vec<String>)>,
}

fn blocks(text: &str) -> Vec<Block> {
    let mut found: Vec<Block> = Vec::new();
    let mut named = Vec::new();
    let mut inside = false;
    for line in text.lines() {
        let is_indented = line.starts_with([' ', '\t']);
        if let ["pub", "data", name, ..] | ["data", name, ..] = words(line)[..] {
            inside = true;
            named.clear();
            found.push(Block {
                name: name.to_string(),
                constructors: Vec::new(),
            });
        } else if !line.trim().is_empty() && !is_indented {
            inside = false;
        }
        let Some(block) = found.last_mut().filter(|_| inside && is_indented) else {
            continue;
        };
        if let Some(comment) = line.trim_start().strip_prefix(COMMENT) {
            named.extend(functions_in(comment));
        }
        for name in declared(line) {
            block.constructors.push((name, std::mem::take(&mut named)));
        }
    }
    found
}

// The names before a colon, if all that stands there are names.
fn declared(line: &str) -> Vec<String> {
    let is_name = |word: &str| word.starts_with(|sign: char| sign.is_alphabetic());
    let words = words(line);
    match words.iter().position(|word| *word == ":") {
        Some(colon) if words[..colon].iter().all(|word| is_name(word)) => {
            words[..colon].iter().map(|word| word.to_string()).collect()
        }
        _ => Vec::new(),
    }
}

// Of a comment the words that are names of functions: `crate::module::function`, or `jt_…`.
fn functions_in(comment: &str) -> Vec<String> {
    let is_name_sign = |sign: char| sign.is_ascii_alphanumeric() || "_:".contains(sign);
    let names = comment.split(|sign| !is_name_sign(sign));
    let names = names.map(|name| name.trim_matches(':'));
    names
        .filter(|name| name.contains("::") || name.starts_with("jt_"))
        .map(str::to_string)
        .collect()
}

/// A function that gives each call of a data type with its definition.
struct Giver {
    name: String,
    over: String,
}

// The functions that give a `ReadingCall`, each over the first of the data types that its type names.
fn givers(code: &str, blocks: &[Block]) -> Vec<Giver> {
    let mut found = Vec::new();
    for line in code.lines().filter(|line| !line.starts_with(' ')) {
        let words = words(line);
        let colon = words.iter().position(|word| *word == ":").unwrap_or(0);
        let (name, over) = words.split_at(colon);
        let is_type = |word: &&&str| blocks.iter().any(|block| block.name == **word);
        let name = name.last().filter(|_| over.last() == Some(&"ReadingCall"));
        if let (Some(name), Some(over)) = (name, over.iter().find(is_type)) {
            found.push(Giver {
                name: name.to_string(),
                over: over.to_string(),
            });
        }
    }
    found
}

// The constructor that the format's record has as judging, and its extent.
fn judging(code: &str, origins: &Origins) -> Option<(String, Origin)> {
    let words = words(code);
    let field = |name| {
        let mut fields = words.windows(3);
        fields.find_map(|three| (three[..2] == [name, "="]).then_some(three[2]))
    };
    Some((
        field("judging")?.to_string(),
        origins.origin(field("extent")?),
    ))
}

fn definition(name: &str, clauses: &[String], origins: &Origins, givers: &[Giver]) -> Definition {
    for clause in clauses {
        let words = words(clause);
        let Some(equals) = words.iter().position(|word| *word == "=") else {
            continue;
        };
        let pattern = &words[1.min(equals)..equals];
        let pattern = match pattern.first() {
            Some(&"(") => group(pattern),
            _ => pattern,
        };
        if pattern.first() != Some(&name) {
            continue;
        }
        return match origins.definition(&words[equals + 1..]) {
            Some(origin) if givers.iter().any(|other| other.name == origin.name) => {
                Definition::HandedOn
            }
            Some(origin) => Definition::Is(origin),
            None => Definition::Missing,
        };
    }
    Definition::Missing
}
