//! A written file as the reading calls and the reader see it.

use super::read::Read;
use crate::answers::Verdict;
use crate::report::Group;
use crate::sff::answers;
use crate::sff::draft::Draft;
use crate::sff::{library, reader};

const MOST_READ: usize = 60;

/// Sees that the file is whole, has these letters and reads alone, and is the one built from them.
pub fn read_back(group: &mut Group, letters: &[Vec<u8>; 2], reads: &[Read], file: &[u8]) {
    let [flows, key] = letters.each_ref().map(|letters| letters.len() as u16);
    let drafts = reads.iter().map(Read::draft).collect();
    let mut draft = Draft::new(flows, key, drafts, None);
    draft.letters = letters.concat();
    group.check(file == draft.bytes(), file, || {
        format!("not the file built from {reads:?}")
    });
    let whole = Verdict::whole(file.len(), 0);
    let judged = [library::judge(file), reader::judge(file).into()];
    group.check(judged == [whole; 2], file, || {
        format!("library and reader judge {judged:?}")
    });
    header(group, letters, reads.len(), file);
    let count = reads.len() as u64;
    for number in [0, count + 1] {
        let answers = [
            library::read(file, number),
            reader::read(file, number).into(),
        ];
        group.check(answers == [answers::Read::refused(7); 2], file, || {
            format!("read {number} of {count}: {answers:?}")
        });
    }
    every_read(group, reads, file);
}

fn header(group: &mut Group, letters: &[Vec<u8>; 2], reads: usize, file: &[u8]) {
    let [flows, key] = letters.each_ref().map(Vec::len);
    let expected = answers::Header {
        refusal: 0,
        index_offset: 0,
        index_length: 0,
        reads: reads as u64,
        header_length: (31 + flows + key).next_multiple_of(8) as u64,
        key_length: key as u64,
        flows: flows as u64,
        flow_letters_start: 31,
        key_start: 31 + flows as u64,
    };
    let answers = [library::header(file), reader::header(file).into()];
    group.check(answers == [expected; 2], file, || {
        format!("headers {answers:?}, written {expected:?}")
    });
    let found = [
        file.get(31..31 + flows),
        file.get(31 + flows..31 + flows + key),
    ];
    let written = [Some(&letters[0][..]), Some(&letters[1][..])];
    group.check(found == written, file, || {
        "other header letters".to_string()
    });
}

// Where there are many reads, some of them.
fn every_read(group: &mut Group, reads: &[Read], file: &[u8]) {
    let stride = reads.len() / MOST_READ + 1;
    for (index, read) in reads.iter().enumerate() {
        if index % stride != 0 && index + 1 != reads.len() {
            continue;
        }
        let number = index as u64 + 1;
        let ours = library::read(file, number);
        let plain = answers::Read::from(reader::read(file, number));
        group.check(ours == plain && ours.refusal == 0, file, || {
            format!("read {number}: library {ours:?}, reader {plain:?}")
        });
        parts(group, read, &plain, file);
    }
}

fn parts(group: &mut Group, written: &Read, read: &answers::Read, file: &[u8]) {
    let part = |start: u64, length: usize| file.get(start as usize..start as usize + length);
    let bases = written.letters.len();
    let right = |clip: u64| if clip == 0 { bases } else { clip as usize };
    let [quality_left, quality_right, adapter_left, adapter_right] = written.clips;
    let last = right(quality_right).min(right(adapter_right));
    let skipped = (quality_left.max(adapter_left) as usize).saturating_sub(1);
    let insert = written.letters[..last].get(skipped..).unwrap_or(&[]);
    let flows: Vec<u8> = written
        .flows
        .iter()
        .flat_map(|flow| flow.to_be_bytes())
        .collect();
    let found = [
        part(read.name_start, read.name_length as usize),
        part(read.flows_start, flows.len()),
        part(read.steps_start, bases),
        part(read.letters_start, bases),
        part(read.qualities_start, bases),
        part(read.insert_start, read.insert_length as usize),
    ];
    let made = [
        &written.name[..],
        &flows,
        &written.steps,
        &written.letters,
        &written.qualities,
        insert,
    ];
    let clips = [
        read.quality_left,
        read.quality_right,
        read.adapter_left,
        read.adapter_right,
    ];
    let same = found == made.map(Some) && clips == written.clips && read.bases == bases as u64;
    group.check(same, file, || format!("read {read:?}, written {written:?}"));
}
