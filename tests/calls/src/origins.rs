//! Where the names of a file come from, and the definitions whose answers its texts speak of.

use crate::words::{behind_first, group, last, words};
use std::collections::BTreeMap;
use std::fmt;

/// The definition that makes a call one of an opened file.
pub const OF_OPENED: &str = "of_opened";

/// What a promise says of a definition, which stands next: what its checks answer, and judging's verdict by them.
const ANSWERS: [&str; 2] = ["answer", VERDICT];

/// Behind the definition stands the extent that the tail is measured from.
const VERDICT: &str = "verdict_of";

/// What makes a reading call of a definition: the definition stands next.
const CALLS: [&str; 3] = ["plain", "handing", "filling"];

/// What makes a reading call one of an opened file: the call stands last.
const LATER: &str = "later";

/// The module that defines a name, without the words that all paths have, and its name there.
#[derive(Clone, Debug, PartialEq, Eq, PartialOrd, Ord)]
pub struct Origin {
    pub module: String,
    pub name: String,
}

impl fmt::Display for Origin {
    fn fmt(&self, f: &mut fmt::Formatter) -> fmt::Result {
        write!(f, "{}.{}", self.module, self.name)
    }
}

/// A file's names for what it uses from other modules of specs.
pub struct Origins {
    own: String,
    /// The file is one of specs, and what it does not use from elsewhere it may define itself.
    is_of_specs: bool,
    used: BTreeMap<String, Origin>,
}

impl Origins {
    /// Of a file of specs without its comments, which is this module itself.
    pub fn of_specs(text: &str, own: &str) -> Origins {
        Origins {
            own: own.to_string(),
            is_of_specs: true,
            used: used(text, &["use"]),
        }
    }

    /// Of a source of this crate without its comments. What it has from other sources are functions, some of them with
    /// the names of definitions: no clause speaks of these.
    pub fn of_source(text: &str, krate: &str) -> Origins {
        Origins {
            own: krate.to_string(),
            is_of_specs: false,
            used: used(text, &["ghost", "use"]),
        }
    }

    /// Of a name that the file does not use from elsewhere, the file itself.
    pub fn origin(&self, name: &str) -> Origin {
        let own = || Origin {
            module: self.own.clone(),
            name: name.to_string(),
        };
        self.used.get(name).cloned().unwrap_or_else(own)
    }

    /// Whether a name is that of one of these definitions, which no source defines itself.
    pub fn is_one(&self, name: &str, definitions: &[&str]) -> bool {
        match self.used.get(name) {
            Some(origin) => definitions.contains(&&*origin.name),
            None => self.is_of_specs && definitions.contains(&name),
        }
    }

    /// The definitions whose answers these words speak of, each once.
    pub fn answered(&self, words: &[&str]) -> Vec<Origin> {
        let mut found = Vec::new();
        for (place, word) in words.iter().enumerate() {
            if self.is_one(word, &ANSWERS) {
                let behind = &words[place + 1..];
                found.extend(match behind.first() {
                    Some(&"(") => self.definition(group(behind)),
                    Some(word) => Some(self.origin(word)),
                    None => None,
                });
            }
        }
        found.sort();
        found.dedup();
        found
    }

    /// The extents that these words measure tails from.
    pub fn extents(&self, words: &[&str]) -> Vec<Origin> {
        let places = 0..words.len();
        let verdicts = places.filter(|&place| self.is_one(words[place], &[VERDICT]));
        let extents = verdicts.map(|place| behind_first(&words[place + 1..]));
        extents
            .filter_map(|extent| self.definition(extent))
            .collect()
    }

    /// The definition that stands in front; a call of an opened file is the call behind it.
    pub fn definition(&self, words: &[&str]) -> Option<Origin> {
        let head = match words.first()? {
            &"(" => return self.definition(group(words)),
            head => head,
        };
        if self.is_one(head, &[OF_OPENED, LATER]) && words.len() > 1 {
            return self.definition(last(words));
        }
        if self.is_one(head, &CALLS) && words.len() > 1 {
            return self.definition(&words[1..]);
        }
        Some(self.origin(head))
    }
}

// What stands behind these words, in all places: a path, and the names that are used from it.
fn used(text: &str, marks: &[&str]) -> BTreeMap<String, Origin> {
    let mut found = BTreeMap::new();
    let words = words(text);
    for place in 0..words.len() {
        if let Some([path, "{", ..]) = words[place..].strip_prefix(marks) {
            add(path, group(&words[place + marks.len() + 1..]), &mut found);
        }
    }
    found
}

// The names that are used from a path, some of them followed by `as` and the file's own name.
fn add(path: &str, names: &[&str], used: &mut BTreeMap<String, Origin>) {
    for name in names.split(|word| *word == ",") {
        if let [original, .., local] | [original @ local] = name {
            let origin = Origin {
                module: module(path),
                name: original.to_string(),
            };
            used.insert(local.to_string(), origin);
        }
    }
}

// All files, a crate's own too, call its definitions `Rattle.CRATE.specs.MODULE.`, which is here `CRATE.MODULE`.
fn module(path: &str) -> String {
    let path = path.trim_end_matches('.');
    let parts = path.strip_prefix("Rattle.");
    match parts.and_then(|path| path.split_once(".specs.")) {
        Some((krate, module)) => format!("{krate}.{module}"),
        None => path.to_string(),
    }
}
