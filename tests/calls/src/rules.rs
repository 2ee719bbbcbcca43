//! Every call of a format that is lent bytes is one of its reading calls, with its definition, or is listed as none.

use crate::functions::{holders, public, Function};
use crate::header;
use crate::origins::Origin;
use crate::report::Report;
use crate::sources::{Sources, HEADER, NO_READING_CALLS};
use crate::specs::{constructors, Constructor, Definition};
use std::collections::BTreeSet;

const SPECS: &str = "crates/promises/specs";
const C_FUNCTIONS: &str = "capi";

/// A place that names a function: a constructor with its definition, or the list of no reading calls.
struct Naming<'a> {
    function: &'a str,
    place: String,
    definition: Option<&'a Origin>,
    extent: Option<&'a Origin>,
}

pub fn check(sources: &Sources) -> Report {
    let mut report = Report::default();
    let formats = formats(sources);
    report.check(!formats.is_empty(), || {
        format!("{SPECS}: no file defines a Call")
    });
    let listed = listed(sources.text(NO_READING_CALLS), &mut report);
    let mut namings: Vec<Naming> = Vec::new();
    for (file, constructors) in &formats {
        for constructor in constructors {
            namings.extend(named(file, constructor, &mut report));
        }
    }
    namings.extend(listed.iter().map(|function| Naming {
        function,
        place: NO_READING_CALLS.to_string(),
        definition: None,
        extent: None,
    }));
    let functions = functions_lent_bytes(sources, &formats);
    check_functions(&functions, &namings, &mut report);
    check_names(&functions, &namings, &mut report);
    check_header(sources, &functions, &mut report);
    report
}

// The files that define a `Call`, and its constructors.
fn formats(sources: &Sources) -> Vec<(String, Vec<Constructor>)> {
    let files = sources.below(SPECS, ".");
    let all = files.map(|(name, text)| {
        let constructors = constructors(text, &format!("promises.{name}"));
        (name, constructors)
    });
    all.filter(|(_, constructors)| !constructors.is_empty())
        .collect()
}

// Of the formats' crates and of the C functions.
fn functions_lent_bytes(
    sources: &Sources,
    formats: &[(String, Vec<Constructor>)],
) -> Vec<Function> {
    let holders = holders(sources);
    let is_of_a_format = |krate: &str| {
        let mut names = formats.iter().map(|(name, _)| name.to_lowercase());
        krate == C_FUNCTIONS || names.any(|name| krate.to_lowercase().starts_with(&name))
    };
    let crates = sources
        .crates()
        .into_iter()
        .filter(|krate| is_of_a_format(krate));
    let functions = crates.flat_map(|krate| public(sources, krate, &holders));
    functions
        .filter(|function| function.is_lent_bytes)
        .collect()
}

// The functions that a constructor names. One whose definition another function gives names none.
fn named<'a>(file: &str, constructor: &'a Constructor, report: &mut Report) -> Vec<Naming<'a>> {
    let place = format!("constructor {} in {file}.antt", constructor.name);
    let is_empty = constructor.functions.is_empty();
    let (holds, fault) = match constructor.definition {
        Definition::Is(_) => (!is_empty, "names no function"),
        Definition::HandedOn => (is_empty, "hands its calls on and yet names functions"),
        Definition::Missing => (false, "has no clause that gives its definition"),
    };
    report.check(holds, || format!("{place}: {fault}"));
    let definition = match &constructor.definition {
        Definition::Is(origin) => Some(origin),
        _ => None,
    };
    let functions = constructor.functions.iter();
    functions
        .map(|function| Naming {
            function,
            place: place.clone(),
            definition,
            extent: constructor.extent.as_ref(),
        })
        .collect()
}

// The names in the list, each of which has a reason behind it.
fn listed(text: &str, report: &mut Report) -> Vec<String> {
    let mut names = Vec::new();
    let lines = text.lines().map(str::trim);
    for line in lines.filter(|line| !line.is_empty() && !line.starts_with('#')) {
        let (name, reason) = line.split_once(": ").unwrap_or((line, ""));
        let name = name.trim_end_matches(':');
        report.check(!reason.trim().is_empty(), || {
            format!("{NO_READING_CALLS}: {name} has no reason")
        });
        names.push(name.to_string());
    }
    names
}

fn check_functions(functions: &[Function], namings: &[Naming], report: &mut Report) {
    for function in functions {
        let name = &function.name;
        let places: Vec<&Naming> = namings
            .iter()
            .filter(|naming| naming.function == name)
            .collect();
        report.check(!places.is_empty(), || {
            format!("{name}: it is lent bytes, but neither a constructor nor {NO_READING_CALLS} names it")
        });
        report.check(places.len() < 2, || {
            let places: Vec<&str> = places.iter().map(|naming| naming.place.as_str()).collect();
            format!("{name}: it is named more than once: {}", places.join(", "))
        });
        for naming in places {
            check_definition(function, naming, report);
        }
    }
}

fn check_definition(function: &Function, naming: &Naming, report: &mut Report) {
    let Some(due) = naming.definition else {
        return;
    };
    report.check(function.is_given_a_place == function.is_of_opened, || {
        let (given, promised) = match function.is_of_opened {
            true => ("is given no opened file's place", "is of one"),
            false => ("is given an opened file's place", "is not of it"),
        };
        format!("{}: it {given}, but its ensures {promised}", function.name)
    });
    report.check(function.cited == std::slice::from_ref(due), || {
        let cited = joined(&function.cited, "no definition");
        format!(
            "{}: its ensures cites {cited}, but {} is {due}",
            function.name, naming.place
        )
    });
    check_extent(function, naming, report);
}

// Judging tells the tail, by its format's extent, and no other call does.
fn check_extent(function: &Function, naming: &Naming, report: &mut Report) {
    let due = Vec::from_iter(naming.extent.cloned());
    report.check(function.extents == due, || {
        let [told, due] = [&function.extents, &due].map(|them| joined(them, "no extent"));
        format!(
            "{}: its ensures tells the tail by {told}, but {} by {due}",
            function.name, naming.place
        )
    });
}

fn joined(origins: &[Origin], none: &str) -> String {
    let names: Vec<String> = origins.iter().map(Origin::to_string).collect();
    match names.is_empty() {
        true => none.to_string(),
        false => names.join(" and "),
    }
}

fn check_names(functions: &[Function], namings: &[Naming], report: &mut Report) {
    let known: BTreeSet<&str> = functions
        .iter()
        .map(|function| function.name.as_str())
        .collect();
    for naming in namings {
        report.check(known.contains(naming.function), || {
            format!(
                "{}: {} is no public function that is lent bytes",
                naming.place, naming.function
            )
        });
    }
}

// The header declares every C function that is lent bytes, and of those that it gives a file no other.
fn check_header(sources: &Sources, functions: &[Function], report: &mut Report) {
    let declared = header::functions(sources.text(HEADER));
    for function in declared.iter().filter(|function| function.takes_a_file) {
        let name = &function.name;
        report.check(functions.iter().any(|other| other.name == *name), || {
            format!("{name}: {HEADER} gives it a file, but in {C_FUNCTIONS} no such function is lent bytes")
        });
    }
    for function in functions
        .iter()
        .filter(|function| function.name.starts_with("jt_"))
    {
        let name = &function.name;
        report.check(declared.iter().any(|other| other.name == *name), || {
            format!("{name}: it is lent bytes, but {HEADER} does not declare it")
        });
    }
}
