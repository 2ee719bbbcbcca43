//! The published samples with their published answers, asked of library and reader.

use super::answers::{Flow, Header, Read};
use super::questions::{Answer, Question};
use super::{samples, Sff};
use crate::answers::{Verdict, Written};
use crate::groups::published::{expect, expect_lines, expect_verdict};
use crate::report::Group;

pub fn samples(group: &mut Group) {
    no_bytes(group);
    no_reads(group);
    one_read(group);
    program_lines(group);
}

fn no_read(refusal: u64) -> Answer {
    Answer::Read(Read::refused(refusal))
}

fn reads(first: u64, room: usize) -> Question {
    Question::Reads { first, room }
}

fn no_reads_of(refusal: u64, room: usize) -> Answer {
    Answer::Reads(Written::refused(refusal, room))
}

fn flow(number: u64, base: u64) -> Question {
    Question::FlowOfBase { number, base }
}

fn flow_answer(refusal: u64, flow: u64) -> Answer {
    Answer::Flow(Flow { refusal, flow })
}

fn no_bytes(group: &mut Group) {
    group.input();
    let header = Header {
        refusal: 1,
        ..Header::default()
    };
    expect_verdict::<Sff>(group, &[], Verdict::refused(1, 0));
    expect(group, &[], Question::Header, Answer::Header(header));
    expect(group, &[], Question::Read(1), no_read(1));
    expect(group, &[], flow(1, 1), flow_answer(1, 0));
    expect(group, &[], reads(1, 40), no_reads_of(1, 40));
}

fn no_reads(group: &mut Group) {
    group.input();
    let file = samples::no_reads();
    let header = Header {
        header_length: 40,
        key_length: 4,
        flows: 4,
        flow_letters_start: 31,
        key_start: 35,
        ..Header::default()
    };
    expect_verdict::<Sff>(group, &file, Verdict::whole(40, 0));
    expect(group, &file, Question::Header, Answer::Header(header));
    expect(group, &file, Question::Read(1), no_read(7));
    expect_verdict::<Sff>(group, &file[..39], Verdict::refused(1, 0));
    expect(group, &file, reads(1, 40), no_reads_of(7, 40));
}

fn one_read(group: &mut Group) {
    group.input();
    let file = samples::one_read();
    let read = Read {
        refusal: 0,
        start: 40,
        name_start: 56,
        name_length: 5,
        bases: 3,
        quality_left: 2,
        quality_right: 0,
        adapter_left: 0,
        adapter_right: 0,
        flows_start: 64,
        steps_start: 72,
        letters_start: 75,
        qualities_start: 78,
        first: 2,
        last: 3,
        insert_start: 76,
        insert_length: 2,
    };
    expect_verdict::<Sff>(group, &file, Verdict::whole(88, 0));
    expect(group, &file, Question::Read(1), Answer::Read(read));
    expect(group, &file, Question::Read(2), no_read(7));
    expect(group, &file, flow(1, 1), flow_answer(0, 1));
    expect(group, &file, flow(1, 3), flow_answer(0, 3));
    expect(group, &file, flow(1, 4), flow_answer(12, 0));
    expect_verdict::<Sff>(group, &file[..87], Verdict::refused(1, 1));
    let numbers = [0, 40, 56, 5, 3, 2, 0, 0, 0, 64, 72, 75, 78, 2, 3, 76, 2];
    let written = Answer::Reads(Written::holding(40, &numbers, 1));
    expect(group, &file, reads(1, 40), written);
    expect(group, &file, reads(1, 16), no_reads_of(13, 16));
    expect(group, &file, reads(2, 40), no_reads_of(7, 40));
    expect(group, &file[..87], reads(1, 40), no_reads_of(1, 40));
}

fn program_lines(group: &mut Group) {
    for (file, printed) in [
        (samples::no_reads(), "SFF whole 40 of 40 tail 0\n"),
        (samples::one_read(), "SFF whole 88 of 88 tail 0\n"),
    ] {
        expect_lines(group, &file, printed);
    }
}
