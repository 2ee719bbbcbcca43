//! Pages for printing: they hold what a picture does, each row on one of them.

use super::damaged::{abif_files, gtc_files, sff_files};
use crate::abif::files::{lettered, run, Fragments};
use crate::apart::check_apart;
use crate::drawing::{check_all_with, Input, Paper, Wish, PAPERS};
use crate::findings::Findings;
use crate::page::{check_inside, check_rows, size};
use crate::picture::{all, number, of_class, pages as pages_of};
use crate::sff::files::stretches;
use crate::xml::Element;
use crate::{abif, gtc, sff};
use compare::abif::generate::Order;
use compare::report::Group;

const DAMAGED: usize = 40;
/// Every so many bytes a file is cut.
const STEP: usize = 37;

pub fn pages(group: &mut Group) {
    let mut inputs = Input::samples();
    inputs.extend(long_files());
    for paper in PAPERS {
        check_on(group, &inputs, paper);
    }
    for (inputs, paper) in others().into_iter().zip(PAPERS.into_iter().cycle()) {
        check_on(group, &inputs, paper);
    }
}

fn check_on(group: &mut Group, inputs: &[Input], paper: Paper) {
    check_all_with(group, inputs, Wish::pages(paper), |findings, root| {
        check_pages(findings, root, paper);
        check_apart(findings, root);
    });
}

// Files that take many pages.
fn long_files() -> Vec<Input> {
    let places: Vec<i16> = (0..600).map(|index| 9 * index + 4).collect();
    let fragments = Fragments::new(16, true, 1300, 6000);
    vec![
        Input::new("a long run", lettered(6000, &places)),
        Input::new(
            "uneven ends",
            run([5200, 4100, 900, 30], Order::DirectoryLast),
        ),
        Input::new("many dyes", fragments.bytes(Order::DirectoryLast)),
        Input::new("many flows", stretches(1300, &[1, 5, 19, 30])),
        Input::new("very many flows", stretches(20_400, &[1, 5, 19, 30])),
        Input::new(
            "very many rows",
            run([103_000, 9, 9, 9], Order::DirectoryFirst),
        ),
    ]
}

// Cut and damaged files.
fn others() -> Vec<Vec<Input>> {
    let mut sets = vec![abif_files(DAMAGED), sff_files(DAMAGED), gtc_files(DAMAGED)];
    for runs in [abif::files::runs(), sff::files::runs(), gtc::files::files()] {
        for run in runs {
            let cuts = (0..run.len()).step_by(STEP);
            let cut = |length| Input::new(format!("cut to {length}"), run[..length].to_vec());
            sets.push(cuts.map(cut).collect());
        }
    }
    sets
}

/// The checks of all pages for this paper.
pub fn check_pages(findings: &mut Findings, root: &Element, paper: Paper) {
    check_paper(findings, root, paper);
    let pages = pages_of(root);
    findings.check(!pages.is_empty(), || "no pages".to_string());
    for (index, page) in pages.iter().enumerate() {
        check_number(findings, page, index + 1, pages.len());
        check_inside(findings, page);
        check_rows(findings, page);
        let is_shape =
            size(page).is_some_and(|[width, height]| (width > height) == paper.landscape);
        findings.check(is_shape, || {
            format!("a page of {:?} for {paper:?}", page.attribute("viewBox"))
        });
    }
    for page in pages.iter().skip(1) {
        for class in ["meaning", "entry", "tail", "tail-strip"] {
            let count = of_class(page, class).len();
            findings.check(count == 0, || format!("{count} of {class} on a later page"));
        }
    }
}

// The style says what paper the pages are for, and nothing but pages is in the body.
fn check_paper(findings: &mut Findings, root: &Element, paper: Paper) {
    let styles = all(root).into_iter().filter(|it| it.name == "style");
    let style: String = styles.map(|style| style.words.to_lowercase()).collect();
    let rule = style.split_once("@page").map_or("", |(_, behind)| behind);
    let rule = rule.split('}').next().unwrap_or("");
    let fits =
        rule.contains(&paper.name.to_lowercase()) && rule.contains("landscape") == paper.landscape;
    findings.check(fits, || format!("the rule of {paper:?} is {rule:?}"));
    let body = root.children.iter().find(|it| it.name == "body");
    let is_pages = |body: &Element| {
        let mut children = body.children.iter();
        children.all(|it| it.name == "svg" && it.attribute("class") == Some("page"))
            && body.text.trim().is_empty()
    };
    findings.check(body.is_some_and(is_pages), || {
        "something in the body that is no page".to_string()
    });
}

fn check_number(findings: &mut Findings, page: &Element, index: usize, count: usize) {
    let found = ["data-page", "data-pages"].map(|name| number(page, name));
    findings.check(found == [Some(index), Some(count)], || {
        format!("page {index} of {count} says {found:?}")
    });
    let texts = of_class(page, "page-number");
    let expected = format!("page {index} of {count}");
    let fits = matches!(texts[..], [text] if text.words == expected);
    findings.check(fits, || format!("{texts:?} for {expected:?}"));
}
