//! A written file as the reading calls and the reader see it.

use crate::abif::answers::Opened;
use crate::abif::generate::{plain_file, Content, Order};
use crate::abif::library;
use crate::abif::reader::{self, Tag};
use crate::answers::{Found, Verdict};
use crate::report::Group;

const MOST_LOOKED_UP: usize = 40;

/// Sees that the file is whole, has these items and no other, and is the one built from them.
pub fn read_back(group: &mut Group, items: &[(Tag, Content)], file: &[u8]) {
    let built = plain_file(items, Order::DirectoryLast).bytes();
    group.check(file == built, file, || {
        format!("not the file built from {items:?}")
    });
    let whole = Verdict::whole(file.len(), 0);
    let judged = [library::judge(file), reader::judge(file).into()];
    group.check(judged == [whole; 2], file, || {
        format!("library and reader judge {judged:?}")
    });
    let directory = (file.len() - 28 * items.len()) as u64;
    let opened = Opened {
        refusal: 0,
        place: directory,
        count: items.len() as u64,
    };
    let answers = [library::open(file), reader::open(file).into()];
    group.check(answers == [opened; 2], file, || {
        format!("library and reader open {answers:?}")
    });
    look_up(group, items, file, directory);
    for tag in absent_tags(items) {
        found(group, file, tag, Found::refused(7));
    }
}

// Where there are many items, some of them.
fn look_up(group: &mut Group, items: &[(Tag, Content)], file: &[u8], directory: u64) {
    let stride = items.len() / MOST_LOOKED_UP + 1;
    let mut place = 128;
    for (index, (tag, content)) in items.iter().enumerate() {
        let length = content.data.len() as u64;
        let mut start = directory + 28 * index as u64 + 20;
        if length > 4 {
            start = place;
            place += length;
        }
        if index % stride != 0 && index + 1 != items.len() {
            continue;
        }
        let expected = Found {
            refusal: 0,
            type_code: content.type_code as u64,
            count: content.count as u64,
            start,
            length,
        };
        found(group, file, *tag, expected);
        let bytes = file.get(start as usize..(start + length) as usize);
        group.check(bytes == Some(&content.data), file, || {
            format!("other bytes under {tag:?}")
        });
        contents(group, file, *tag, content);
    }
}

fn found(group: &mut Group, file: &[u8], tag: Tag, expected: Found) {
    let answers = [library::lookup(file, tag), reader::lookup(file, tag).into()];
    group.check(answers == [expected; 2], file, || {
        format!("{tag:?}: library and reader find {answers:?}, written {expected:?}")
    });
}

// What the writer took is what reading takes: every text, and the last element of a listed type.
fn contents(group: &mut Group, file: &[u8], tag: Tag, content: &Content) {
    let text = library::text(file, tag).refusal;
    let right = if matches!(content.type_code, 18 | 19) {
        0
    } else {
        10
    };
    group.check(text == right, file, || {
        format!("{tag:?}: text refused with {text}")
    });
    let element = library::element(file, tag, content.count as u64).refusal;
    let right = match content.type_code {
        1024.. => 10,
        _ if content.count == 0 => 12,
        _ => 0,
    };
    group.check(element == right, file, || {
        format!("{tag:?}: last element refused with {element}")
    });
}

// Another number under a name that is there, and another name.
fn absent_tags(items: &[(Tag, Content)]) -> Vec<Tag> {
    let mut tags = vec![Tag::new(b"none", 1), Tag::new(b"tdir", 2)];
    if let Some((tag, _)) = items.last() {
        let number = tag.number.wrapping_add(1);
        let name = tag.name;
        tags.push(Tag { name, number });
    }
    tags.retain(|tag| items.iter().all(|(other, _)| other != tag));
    tags
}
