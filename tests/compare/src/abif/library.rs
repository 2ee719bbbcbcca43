//! The library's ABIF functions behind safe calls.

use super::answers::{Element, Opened, Part};
use super::reader::{Carried, Entry, Tag};
use super::writer::Lent;
use crate::answers::{Finished, Found, Listed, Verdict};

extern "C" {
    fn jt_abif_judge(bytes: *const u8, len: usize) -> Verdict;
    fn jt_abif_open(bytes: *const u8, len: usize) -> Opened;
    fn jt_abif_lookup(bytes: *const u8, len: usize, name: u32, number: i32) -> Found;
    fn jt_abif_element(bytes: *const u8, len: usize, name: u32, number: i32, index: u64)
        -> Element;
    fn jt_abif_text(bytes: *const u8, len: usize, name: u32, number: i32) -> Part;
    fn jt_abif_list(bytes: *const u8, len: usize, entries: *mut Entry, room: usize) -> Listed;
    fn jt_abif_whole_numbers(
        bytes: *const u8,
        len: usize,
        name: u32,
        number: i32,
        first: u64,
        out: *mut i64,
        room: usize,
    ) -> Listed;
    fn jt_abif_check_tags(
        bytes: *const u8,
        len: usize,
        profile: u64,
        out: *mut i64,
        room: usize,
    ) -> Listed;
    fn jt_abif_lookup_opened(
        bytes: *const u8,
        len: usize,
        place: u64,
        count: u64,
        name: u32,
        number: i32,
    ) -> Found;
    fn jt_abif_element_opened(
        bytes: *const u8,
        len: usize,
        place: u64,
        count: u64,
        name: u32,
        number: i32,
        index: u64,
    ) -> Element;
    fn jt_abif_text_opened(
        bytes: *const u8,
        len: usize,
        place: u64,
        count: u64,
        name: u32,
        number: i32,
    ) -> Part;
    fn jt_abif_list_opened(
        bytes: *const u8,
        len: usize,
        place: u64,
        count: u64,
        entries: *mut Entry,
        room: usize,
    ) -> Listed;
    fn jt_abif_write(
        names: *const u32,
        name_count: usize,
        numbers: *const i32,
        number_count: usize,
        types: *const i16,
        type_count: usize,
        counts: *const u32,
        count_count: usize,
        starts: *const u64,
        start_count: usize,
        lengths: *const u64,
        length_count: usize,
        data: *const u8,
        data_length: usize,
        out: *mut u8,
        room: usize,
    ) -> Finished;
}

pub fn judge(bytes: &[u8]) -> Verdict {
    // SAFETY: the pointer and the length are those of one slice.
    unsafe { jt_abif_judge(bytes.as_ptr(), bytes.len()) }
}

pub fn open(bytes: &[u8]) -> Opened {
    // SAFETY: the pointer and the length are those of one slice.
    unsafe { jt_abif_open(bytes.as_ptr(), bytes.len()) }
}

pub fn lookup(bytes: &[u8], tag: Tag) -> Found {
    // SAFETY: the pointer and the length are those of one slice.
    unsafe { jt_abif_lookup(bytes.as_ptr(), bytes.len(), tag.name, tag.number) }
}

pub fn element(bytes: &[u8], tag: Tag, index: u64) -> Element {
    // SAFETY: the pointer and the length are those of one slice.
    unsafe { jt_abif_element(bytes.as_ptr(), bytes.len(), tag.name, tag.number, index) }
}

pub fn text(bytes: &[u8], tag: Tag) -> Part {
    // SAFETY: the pointer and the length are those of one slice.
    unsafe { jt_abif_text(bytes.as_ptr(), bytes.len(), tag.name, tag.number) }
}

pub fn list(bytes: &[u8], out: &mut [Entry]) -> Listed {
    // SAFETY: each pointer and the length behind it are those of one slice.
    unsafe { jt_abif_list(bytes.as_ptr(), bytes.len(), out.as_mut_ptr(), out.len()) }
}

pub fn whole_numbers(bytes: &[u8], tag: Tag, first: u64, out: &mut [i64]) -> Listed {
    // SAFETY: each pointer and the length behind it are those of one slice.
    unsafe {
        jt_abif_whole_numbers(
            bytes.as_ptr(),
            bytes.len(),
            tag.name,
            tag.number,
            first,
            out.as_mut_ptr(),
            out.len(),
        )
    }
}

pub fn check_tags(bytes: &[u8], profile: u64, out: &mut [i64]) -> Listed {
    // SAFETY: each pointer and the length behind it are those of one slice.
    unsafe {
        jt_abif_check_tags(
            bytes.as_ptr(),
            bytes.len(),
            profile,
            out.as_mut_ptr(),
            out.len(),
        )
    }
}

pub fn lookup_opened(bytes: &[u8], carried: Carried, tag: Tag) -> Found {
    let Carried { place, count } = carried;
    // SAFETY: the pointer and the length are those of one slice.
    unsafe {
        jt_abif_lookup_opened(
            bytes.as_ptr(),
            bytes.len(),
            place,
            count,
            tag.name,
            tag.number,
        )
    }
}

pub fn element_opened(bytes: &[u8], carried: Carried, tag: Tag, index: u64) -> Element {
    let Carried { place, count } = carried;
    // SAFETY: the pointer and the length are those of one slice.
    unsafe {
        jt_abif_element_opened(
            bytes.as_ptr(),
            bytes.len(),
            place,
            count,
            tag.name,
            tag.number,
            index,
        )
    }
}

pub fn text_opened(bytes: &[u8], carried: Carried, tag: Tag) -> Part {
    let Carried { place, count } = carried;
    // SAFETY: the pointer and the length are those of one slice.
    unsafe {
        jt_abif_text_opened(
            bytes.as_ptr(),
            bytes.len(),
            place,
            count,
            tag.name,
            tag.number,
        )
    }
}

pub fn list_opened(bytes: &[u8], carried: Carried, out: &mut [Entry]) -> Listed {
    let Carried { place, count } = carried;
    // SAFETY: each pointer and the length behind it are those of one slice.
    unsafe {
        jt_abif_list_opened(
            bytes.as_ptr(),
            bytes.len(),
            place,
            count,
            out.as_mut_ptr(),
            out.len(),
        )
    }
}

pub fn write(lent: &Lent, out: &mut [u8]) -> Finished {
    // SAFETY: each pointer and the length behind it are those of one slice.
    unsafe {
        jt_abif_write(
            lent.names.as_ptr(),
            lent.names.len(),
            lent.numbers.as_ptr(),
            lent.numbers.len(),
            lent.types.as_ptr(),
            lent.types.len(),
            lent.counts.as_ptr(),
            lent.counts.len(),
            lent.starts.as_ptr(),
            lent.starts.len(),
            lent.lengths.as_ptr(),
            lent.lengths.len(),
            lent.data.as_ptr(),
            lent.data.len(),
            out.as_mut_ptr(),
            out.len(),
        )
    }
}
