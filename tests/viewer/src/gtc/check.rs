//! The checks of a GTC file's picture.

use super::places::{check_places, Places};
use super::refusals;
use crate::findings::Findings;
use crate::picture::{self, grouped, number, of_class, part, Parts, Said};
use crate::verdict;
use crate::xml::Element;
use compare::gtc::reader::{lookup, Snp, SnpArrays};
use compare::little_endian::u16_at;
use compare::refusal::Refusal;
use std::collections::BTreeMap;

/// The ids of the arrays, with their names in the published Table 3.
const ARRAYS: [(u16, &str); 5] = [
    (1002, "Genotypes"),
    (1003, "BaseCalls"),
    (1004, "Genotype Scores"),
    (1000, "Raw X intensity values"),
    (1001, "Raw Y intensity values"),
];
const SNPS: &str = "SNPs";
const NULL: u8 = 4;

/// How many SNPs have each genotype, by its name.
type Counts = BTreeMap<String, usize>;

/// What a picture must show: the places of the marks, and the refusal of the SNPs that have none.
struct Contents {
    places: Places,
    refusal: Option<Refusal>,
    /// The SNPs that are refused by themselves.
    forbidden: usize,
}

impl Contents {
    fn of(bytes: &[u8]) -> Contents {
        match SnpArrays::of(bytes) {
            Ok(arrays) if arrays.count() == 0 => Contents {
                places: Places::new(),
                refusal: Some(Refusal::NoSuchElement),
                forbidden: 0,
            },
            Ok(arrays) => Contents::of_snps(&arrays),
            Err(refusal) => Contents {
                places: unread(bytes),
                refusal: Some(refusal),
                forbidden: 0,
            },
        }
    }

    fn of_snps(arrays: &SnpArrays) -> Contents {
        let mut places = Places::new();
        let mut forbidden = 0;
        for index in 1..=arrays.count() as u64 {
            match arrays.snp(index) {
                Ok(snp) => {
                    let place = [snp.x.into(), snp.y.into()];
                    places.entry(genotype(&snp)).or_default().push(place);
                }
                Err(_) => forbidden += 1,
            }
        }
        Contents {
            places,
            refusal: (forbidden > 0).then_some(Refusal::ForbiddenValue),
            forbidden,
        }
    }
}

// Intensities whose genotypes cannot be told.
fn unread(bytes: &[u8]) -> Places {
    let mut places = Places::new();
    if let (Ok(x), Ok(y)) = (lookup(bytes, 1000), lookup(bytes, 1001)) {
        let x = bytes[x.part]
            .chunks_exact(2)
            .map(|two| u16_at(two, 0).into());
        let y = bytes[y.part]
            .chunks_exact(2)
            .map(|two| u16_at(two, 0).into());
        let points = x.zip(y).map(|(x, y)| [x, y]);
        places.insert("unread".to_string(), points.collect());
    }
    places
}

fn genotype(snp: &Snp) -> String {
    match (snp.code, snp.ploidy) {
        (NULL, _) => "NULL".to_string(),
        (_, 0) => "NC".to_string(),
        (_, letters) => {
            let b = usize::from(snp.b_alleles);
            let a = usize::from(letters) - b;
            ["A".repeat(a), "B".repeat(b)].concat()
        }
    }
}

/// Checks all that the picture shows; tells whether SNPs are refused.
pub fn check(findings: &mut Findings, root: &Element, bytes: &[u8]) -> bool {
    let contents = Contents::of(bytes);
    let refused = ARRAYS.map(|(id, _)| lookup(bytes, id).err().map(|refusal| part(id, refusal)));
    let mut parts: Parts = refused.into_iter().flatten().collect();
    parts.extend(contents.refusal.map(|refusal| part(SNPS, refusal)));
    let said = |part: &str, refusal| Said {
        label: label_of(&contents, part),
        words: words_of(bytes, part, refusal),
    };
    picture::check_frame(findings, root, bytes, &parts, said);
    check_counts(findings, root, &contents);
    check_places(findings, root, &contents.places);
    check_forbidden(findings, root, &contents);
    check_told(findings, root, bytes, &contents);
    let is_refused = verdict::refused(bytes).is_some();
    let is_drawn = !of_class(root, "snps").is_empty();
    picture::check_mark(findings, root, is_drawn, is_refused);
    contents.refusal.is_some()
}

// An array is called by its id and its name, SNPs that are refused by themselves by their count.
fn label_of(contents: &Contents, part: &str) -> String {
    let mut arrays = ARRAYS.iter();
    if let Some((id, name)) = arrays.find(|(id, _)| id.to_string() == part) {
        return format!("{id} {name}");
    }
    if contents.forbidden == 0 {
        return part.to_string();
    }
    let drawn: usize = contents.places.values().map(Vec::len).sum();
    let [forbidden, all] = [contents.forbidden, drawn + contents.forbidden];
    let [forbidden, all] = [forbidden, all].map(|count| grouped(count as i64));
    format!("{forbidden} of {all} SNPs")
}

fn words_of(bytes: &[u8], part: &str, refusal: u64) -> &'static str {
    match part.parse() {
        Ok(id) => refusals::words(bytes, id, refusal),
        Err(_) => refusals::words_of_snps(bytes, refusal),
    }
}

// No marks of no SNPs are as good as none.
fn check_counts(findings: &mut Findings, root: &Element, contents: &Contents) {
    let mut found = Counts::new();
    for marks in of_class(root, "snps") {
        let genotype = marks.attribute("data-genotype").unwrap_or("").to_string();
        let count = number(marks, "data-count").unwrap_or(0);
        let places = marks.attribute("d").unwrap_or("").matches('M').count();
        let fits = marks.name == "path" && places <= count && (places > 0) == (count > 0);
        findings.check(fits, || format!("{places} marks for {count} of {genotype}"));
        let is_new = found.insert(genotype, count).is_none();
        findings.check(is_new, || "two paths for one genotype".to_string());
    }
    found.retain(|_, count| *count > 0);
    let expected = contents.places.iter();
    let expected = expected.map(|(genotype, places)| (genotype.clone(), places.len()));
    let expected: Counts = expected.filter(|(_, count)| *count > 0).collect();
    findings.check(found == expected, || {
        format!("marks for {found:?}, there are {expected:?}")
    });
}

// Each array that is there is told with its length.
fn check_told(findings: &mut Findings, root: &Element, bytes: &[u8], contents: &Contents) {
    let texts = picture::all(root)
        .into_iter()
        .filter(|it| it.name == "text");
    let texts: Vec<&str> = texts.map(|text| text.words.as_str()).collect();
    let arrays = ARRAYS.iter().filter_map(|(id, name)| {
        let count = lookup(bytes, *id).ok()?.count;
        let told = format!("{id} {name}: {}", grouped(count as i64));
        let is_refused = verdict::refused(bytes).is_some();
        Some(told + if is_refused { ", file refused" } else { "" })
    });
    for told in arrays {
        findings.check(texts.contains(&told.as_str()), || {
            format!("no text says {told:?}")
        });
    }
    check_legend(findings, &texts, contents);
}

// Each genotype is named once beside the plot, those that look the same in one line, with how many SNPs
// they have; where they are many, not all of them are named.
fn check_legend(findings: &mut Findings, texts: &[&str], contents: &Contents) {
    let places = contents.places.iter();
    let places = places.map(|(genotype, places)| (genotype.clone(), places.len()));
    let mut unnamed: Counts = places.filter(|(_, count)| *count > 0).collect();
    let mut untold: usize = unnamed.values().sum();
    let mut are_all_named = true;
    for (names, told) in texts.iter().filter_map(|text| legend_line(text)) {
        let is_whole = !names.ends_with(" ...");
        let names = names.trim_end_matches(" ...").split(", ");
        let named: Option<usize> = names.map(|name| unnamed.remove(name)).sum();
        let fits = named.is_some_and(|named| named == told || named < told && !is_whole);
        findings.check(fits, || format!("{told} SNPs told, {named:?} named"));
        untold = untold.wrapping_sub(told);
        are_all_named &= is_whole;
    }
    let is_told = untold == 0 && (unnamed.is_empty() || !are_all_named);
    findings.check(is_told, || format!("nothing is told of {unnamed:?}"));
}

// The names of genotypes and how many SNPs have them.
fn legend_line(text: &str) -> Option<(&str, usize)> {
    let told = text.strip_suffix(" SNPs").or(text.strip_suffix(" SNP"))?;
    let (names, count) = told.split_once(": ")?;
    let number = count.replace(',', "").parse().ok()?;
    (grouped(number as i64) == count).then_some((names, number))
}

fn check_forbidden(findings: &mut Findings, root: &Element, contents: &Contents) {
    if contents.forbidden == 0 {
        return;
    }
    let mut boxes = of_class(root, "refused");
    boxes.retain(|hatched| hatched.attribute("data-part") == Some(SNPS));
    let counts: Vec<Option<usize>> = boxes
        .iter()
        .map(|hatched| number(hatched, "data-count"))
        .collect();
    let fits = counts.contains(&Some(contents.forbidden))
        && counts
            .iter()
            .flatten()
            .all(|&count| count == contents.forbidden);
    findings.check(fits, || {
        format!("{counts:?} for {} forbidden", contents.forbidden)
    });
}
