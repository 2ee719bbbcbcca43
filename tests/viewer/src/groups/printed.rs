//! Pictures on paper: printed by a browser, nothing of them is lost, cut or printed over something else.

use crate::abif::files::{
    dye_channel, dye_count, lettered, lettered_channels, levelled, run, shorts, string, Fragments,
};
use crate::drawing::{check_drawn, draw, read, Input, Paper, Wish, PAPERS, PLAIN};
use crate::findings::Findings;
use crate::gtc::files::snps;
use crate::printer::{is_there, Printer};
use crate::program::Program;
use crate::scratch::Scratch;
use crate::sff::files::stretches;
use crate::sheet::check_sheets;
use crate::workers;
use compare::abif::generate::{plain_file, Content, Order};
use compare::abif::reader::Tag;
use compare::gtc::generate as gtc;
use compare::report::Group;
use compare::sff::draft;
use std::fs;
use std::path::Path;

pub fn printed(group: &mut Group) {
    print_all(group, &files(), true);
}

pub fn labels(group: &mut Group) {
    print_all(group, &labelled_files(), false);
}

fn files() -> Vec<Input> {
    vec![
        Input::sample("run.ab1"),
        Input::sample("cut-run.ab1"),
        Input::new("long.ab1", long_run()),
        Input::sample("fragments.fsa"),
        Input::sample("run.sff"),
        Input::sample("cut-run.gtc"),
    ]
}

// A run of many rows, whose last channel is shorter than the others.
fn long_run() -> Vec<u8> {
    let places: Vec<i16> = (0..660).map(|index| 9 * index + 5).collect();
    lettered_channels(&[6000, 6000, 6000, 4100], &places)
}

// Files whose labels have little room.
fn labelled_files() -> Vec<Input> {
    let mut files: Vec<Input> = ["W".repeat(200), "試料".repeat(30), "عينة".repeat(25)]
        .iter()
        .flat_map(|name| named_files(name))
        .collect();
    let dense: Vec<i16> = (0..240).map(|index| 2 * index + 1).collect();
    let levels = [30_000, 10, 0, -10];
    files.push(Input::new("dense.ab1", lettered(1400, &dense)));
    let shuffled: Vec<i16> = (0..240).map(|index| 2 * (97 * index % 240) + 1).collect();
    files.push(Input::new("shuffled.ab1", lettered(1400, &shuffled)));
    files.push(Input::new("levels.ab1", levelled(levels)));
    files.push(Input::new(
        "uneven.ab1",
        run([1700, 1200, 90, 30], Order::DirectoryFirst),
    ));
    files.push(Input::new(
        "stretches.sff",
        stretches(220, &[1, 5, 19, 25, 3000]),
    ));
    files.push(Input::new("many-dyes.fsa", {
        let run = Fragments::new(16, true, 1200, 2300);
        run.bytes(Order::DirectoryFirst)
    }));
    files.push(Input::new("cut-in-the-directory.ab1", {
        let mut bytes = lettered(700, &[30, 40]);
        bytes.truncate(200);
        bytes
    }));
    files
}

// This name for the file, its sample, its dyes and its read.
fn named_files(name: &str) -> Vec<Input> {
    let long = name.repeat(4);
    let text: String = long.chars().take(80).collect();
    let text = text.as_bytes();
    let mut items = vec![
        dye_count(5),
        string(b"SMPL", 1, text),
        (Tag::new(b"FWO_", 1), Content::listed(2, b"GATC".to_vec())),
    ];
    for dye in 1..=5 {
        items.push(string(b"DyeN", dye, text));
        items.push((Tag::new(b"DyeW", dye), shorts([540])));
        items.push((dye_channel(dye, false), shorts(0..120 * dye as i16)));
    }
    let run = plain_file(&items, Order::DirectoryFirst).bytes();
    let read = draft::Read::new(long.as_bytes(), 20, &[1, 0, 3, 2]);
    let reads = draft::Draft::new(20, 4, vec![read], None).bytes();
    let mut items = gtc::snp_items(&snps(&[1, 2, 3, 0, 45]));
    items.push((10, gtc::text(text)));
    let file = |ending: &str, bytes| {
        let start: String = name.chars().take(80).collect();
        Input::new(format!("{start}.{ending}"), bytes)
    };
    vec![
        file("ab1", run[..run.len() - 10].to_vec()),
        file("sff", reads),
        file("gtc", gtc::plain_file(&items).bytes()),
    ]
}

/// A picture to be printed, on the paper that it is for or on another one.
struct Job<'a> {
    file: &'a Input,
    wish: Wish,
    paper: Option<Paper>,
}

fn jobs(files: &[Input], on_all_papers: bool) -> Vec<Job<'_>> {
    let mut jobs = Vec::new();
    for file in files {
        jobs.push(Job {
            file,
            wish: PLAIN,
            paper: None,
        });
        // A small sheet and a wide one have all the room that there may be for a label.
        let papers: Vec<(Paper, Paper)> = match on_all_papers {
            true => PAPERS
                .into_iter()
                .flat_map(|made_for| PAPERS.map(|paper| (made_for, paper)))
                .collect(),
            false => vec![(PAPERS[0], PAPERS[0]), (PAPERS[3], PAPERS[3])],
        };
        jobs.extend(papers.into_iter().map(|(made_for, paper)| Job {
            file,
            wish: Wish::pages(made_for),
            paper: Some(paper),
        }));
    }
    jobs
}

// Where there is no browser, nothing is tried, and that is said.
fn print_all(group: &mut Group, files: &[Input], on_all_papers: bool) {
    if !is_there() {
        let reason = "chromium and poppler-utils are missing and cannot be installed";
        return group.leave_out(reason.to_string());
    }
    let scratch = Scratch::new();
    let jobs = jobs(files, on_all_papers);
    let findings = workers::each(jobs.len(), |worker, index| {
        let folder = scratch.path(format!("worker-{worker}"));
        fs::create_dir_all(&folder).expect("a folder in the temporary folder");
        let mut findings = Findings::default();
        check_job(&mut findings, &jobs[index], &folder);
        findings
    });
    for (found, job) in findings.into_iter().zip(&jobs) {
        let name = format!("{}, {:?} on {:?}", job.file.name, job.wish, job.paper);
        found.report(group, &name, &job.file.bytes);
    }
}

fn check_job(findings: &mut Findings, job: &Job, folder: &Path) {
    let file = folder.join(&job.file.name);
    let bytes = &job.file.bytes;
    fs::write(&file, bytes).expect("a file in the temporary folder");
    let picture = folder.join(format!("picture.{}", job.wish.ending()));
    let drawn = draw(&Program::plain(), &file, &picture, job.wish);
    check_drawn(findings, &drawn, &file, bytes, job.wish);
    let drawn = drawn.picture.unwrap_or_default();
    let Ok(root) = read(&drawn, job.wish) else {
        return;
    };
    if let Some(paper) = job.paper {
        let text = String::from_utf8_lossy(&drawn);
        fs::write(&picture, on_paper(&text, paper)).expect("a file in the temporary folder");
    }
    match Printer::new(folder.to_path_buf()).print(&picture) {
        Err(fault) => findings.check(false, || fault),
        Ok(printed) => check_sheets(findings, &root, &printed, bytes),
    }
}

// The page with the rule of another paper.
fn on_paper(text: &str, paper: Paper) -> String {
    let Some((before, behind)) = text.split_once("@page") else {
        return text.to_string();
    };
    let size = behind.split_once("size:").and_then(|(start, behind)| {
        let end = behind.find([';', '}'])?;
        Some((start, &behind[end..]))
    });
    let shape = if paper.landscape {
        "landscape"
    } else {
        "portrait"
    };
    size.map_or(text.to_string(), |(start, behind)| {
        format!("{before}@page{start}size:{} {shape}{behind}", paper.name)
    })
}
