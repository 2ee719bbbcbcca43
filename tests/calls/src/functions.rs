//! The public functions of a crate: whether each is lent bytes, and what its promise cites.

use crate::origins::{Origin, Origins, OF_OPENED};
use crate::sources::Sources;
use crate::words::{group, without_comments, words};
use std::collections::BTreeSet;

const BYTES: [&str; 3] = ["[", "u8", "]"];
/// What may stand between `pub` and `fn`.
const MARKS: [&str; 4] = ["extern", "\"C\"", "unsafe", "const"];

pub struct Function {
    /// With the crate and the module in front, but for a C function.
    pub name: String,
    pub is_lent_bytes: bool,
    /// It is given the place that an opened file carries, or the opened file itself; any `self` may be one, since a type that holds no bytes may hold a place.
    pub is_given_a_place: bool,
    /// Its promise is of an opened file.
    pub is_of_opened: bool,
    /// The definitions whose answers the promise speaks of.
    pub cited: Vec<Origin>,
    /// The extents that it measures tails from.
    pub extents: Vec<Origin>,
}

/// The types that hold a part of lent bytes, in all crates.
pub fn holders(sources: &Sources) -> BTreeSet<String> {
    let texts: Vec<String> = sources
        .texts
        .iter()
        .filter(|(path, _)| path.ends_with(".rt"))
        .map(|(_, text)| without_comments(text, "//"))
        .collect();
    let mut found = BTreeSet::new();
    loop {
        let before = found.len();
        for text in &texts {
            add_holders(&words(text), &mut found);
        }
        if found.len() == before {
            return found;
        }
    }
}

fn add_holders(words: &[&str], found: &mut BTreeSet<String>) {
    for (place, word) in words.iter().enumerate() {
        if !["struct", "enum"].contains(word) {
            continue;
        }
        let rest = &words[place + 1..];
        let opening = rest.iter().position(|word| ["{", "(", ";"].contains(word));
        let fields = opening.map_or(&rest[..0], |at| group(&rest[at..]));
        if hold_bytes(fields, found) {
            found.extend(rest.first().map(|name| before_generics(name).to_string()));
        }
    }
}

fn before_generics(name: &str) -> &str {
    name.split('<').next().unwrap_or(name)
}

// The head of the `impl` block that the words end in: what stands between `impl` and the bracket.
fn impl_head<'a, 'b>(words: &'a [&'b str]) -> &'a [&'b str] {
    let mut depth = 0;
    for (place, word) in words.iter().enumerate().rev() {
        match *word {
            "}" => depth += 1,
            "{" => depth -= 1,
            _ => {}
        }
        if depth < 0 {
            let begins = words[..place]
                .iter()
                .rposition(|word| ["{", "}", ";"].contains(word))
                .map_or(0, |at| at + 1);
            return &words[begins..place];
        }
    }
    &[]
}

/// The types that can hold no part of lent bytes: declared with no parameter, and no field of theirs is one. A `self` is lent bytes but where the
/// `impl` block says no more than such a name.
fn plain_types(sources: &Sources, holders: &BTreeSet<String>) -> BTreeSet<String> {
    let mut plain = BTreeSet::new();
    let mut others = holders.clone();
    for (path, text) in &sources.texts {
        if !path.ends_with(".rt") {
            continue;
        }
        let text = without_comments(text, "//");
        for pair in words(&text).windows(2) {
            match pair {
                ["struct" | "enum", name] if name.contains('<') => {
                    others.insert(before_generics(name).to_string());
                }
                ["struct" | "enum", name] => {
                    plain.insert(name.to_string());
                }
                ["type", name] => {
                    others.insert(before_generics(name).to_string());
                }
                _ => {}
            }
        }
    }
    plain.retain(|name| !others.contains(name));
    plain
}

fn self_is_lent(parameters: &[&str], head: &[&str], plain: &BTreeSet<String>) -> bool {
    let is_plain = matches!(head, ["impl", name] if plain.contains(*name));
    names(parameters).any(|name| name == "self") && !is_plain
}

fn names<'a>(words: &'a [&str]) -> impl Iterator<Item = &'a str> {
    let is_name_sign = |sign: char| sign.is_alphanumeric() || sign == '_';
    words
        .iter()
        .flat_map(move |word| word.split(move |sign| !is_name_sign(sign)))
}

// A slice of bytes is among these types, or one of the holders.
fn hold_bytes(types: &[&str], holders: &BTreeSet<String>) -> bool {
    types.windows(3).any(|three| three == BYTES) || names(types).any(|name| holders.contains(name))
}

/// The public functions of a crate.
pub fn public(sources: &Sources, krate: &str, holders: &BTreeSet<String>) -> Vec<Function> {
    let folder = format!("crates/{krate}/src");
    let plain = plain_types(sources, holders);
    let mut found = Vec::new();
    for (module, text) in sources.below(&folder, "::") {
        let text = without_comments(text, "//");
        let file = File {
            sources,
            krate,
            module: &module,
            plain: &plain,
            origins: Origins::of_source(&text, krate),
        };
        file.add_functions(&words(&text), holders, &mut found);
    }
    found
}

struct File<'a> {
    sources: &'a Sources,
    krate: &'a str,
    module: &'a str,
    plain: &'a BTreeSet<String>,
    origins: Origins,
}

impl File<'_> {
    fn add_functions(&self, words: &[&str], holders: &BTreeSet<String>, found: &mut Vec<Function>) {
        for place in 0..words.len() {
            if !is_public_function(&words[..=place]) {
                continue;
            }
            let [name, rest @ ..] = &words[place + 1..] else {
                continue;
            };
            let opening = rest.iter().position(|word| *word == "(").unwrap_or(0);
            let closing = opening + group(&rest[opening..]).len() + 1;
            let (parameters, behind) = rest.split_at(closing.min(rest.len()));
            let promise = promise(behind);
            let is_self_lent = self_is_lent(parameters, impl_head(&words[..place]), self.plain);
            found.push(Function {
                name: self.name(before_generics(name)),
                is_lent_bytes: is_self_lent || hold_bytes(parameters, holders),
                is_given_a_place: names(parameters)
                    .any(|name| ["self", "place"].contains(&name) || holders.contains(name)),
                is_of_opened: promise
                    .iter()
                    .any(|word| self.origins.is_one(word, &[OF_OPENED])),
                cited: self.cited(&promise),
                extents: self.origins.extents(&promise),
            });
        }
    }

    fn name(&self, function: &str) -> String {
        match self.module {
            _ if function.starts_with("jt_") => function.to_string(),
            "lib" => format!("{}::{function}", self.krate),
            module => format!("{}::{module}::{function}", self.krate),
        }
    }

    // Where the promise itself has no `answer`, those of the definitions of the crate that it names.
    fn cited(&self, promise: &[&str]) -> Vec<Origin> {
        let mut found = self.origins.answered(promise);
        if !found.is_empty() {
            return found;
        }
        for word in promise {
            let origin = self.origins.origin(word);
            if let Some(module) = origin.module.strip_prefix(&format!("{}.", self.krate)) {
                found.extend(self.cited_by(module, &origin.name));
            }
        }
        found.sort();
        found.dedup();
        found
    }

    fn cited_by(&self, module: &str, name: &str) -> Vec<Origin> {
        let path = format!(
            "crates/{}/specs/{}.antt",
            self.krate,
            module.replace('.', "/")
        );
        let text = without_comments(self.sources.text(&path), "--");
        let origins = Origins::of_specs(&text, &format!("{}.{module}", self.krate));
        let clauses = crate::specs::clauses(&text, name);
        let mut found = Vec::new();
        for clause in &clauses {
            found.extend(origins.answered(&words(clause)));
        }
        found
    }
}

// The last of these words begins a function that all may call.
fn is_public_function(words: &[&str]) -> bool {
    let [before @ .., "fn"] = words else {
        return false;
    };
    let mut before = before.iter().rev().skip_while(|word| MARKS.contains(word));
    before.next() == Some(&"pub")
}

// What `ensures` says, of the words behind a function's parameters. A clause may have a name before its bracket.
fn promise<'a>(words: &[&'a str]) -> Vec<&'a str> {
    let mut found = Vec::new();
    let mut rest = words;
    while let Some(at) = rest.iter().position(|word| *word == "{") {
        let clause = group(&rest[at..]);
        match rest[..at] {
            [.., "ensures"] | [.., "ensures", _] => found.extend(clause),
            [.., "requires"] | [.., "requires", _] => {}
            _ => break,
        }
        rest = &rest[(at + clause.len() + 2).min(rest.len())..];
    }
    found
}
