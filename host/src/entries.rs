//! The four entries of the proved library, as `include/notice.h` declares them, over slices.

#![allow(unsafe_code)]

/// The declarations themselves: a slice is a pointer and a length.
pub mod raw {
    extern "C" {
        pub fn notice_read(
            note: *const u8,
            note_len: usize,
            sheet: *const u8,
            sheet_len: usize,
            release: u32,
            definitions: *mut u32,
            definitions_len: usize,
            spans: *mut u32,
            spans_len: usize,
            answer: *mut [u64; 4],
        ) -> u32;

        pub fn notice_render(
            note: *const u8,
            note_len: usize,
            sheet: *const u8,
            sheet_len: usize,
            release: u32,
            definitions: *mut u32,
            definitions_len: usize,
            spans: *mut u32,
            spans_len: usize,
            page: *mut u8,
            page_len: usize,
            answer: *mut [u64; 5],
        ) -> u32;

        pub fn notice_resolve(
            note: *const u8,
            note_len: usize,
            sheet: *const u8,
            sheet_len: usize,
            label: *const u8,
            label_len: usize,
            answer: *mut [u64; 4],
        ) -> u32;

        pub fn notice_same_label(a: *const u8, a_len: usize, b: *const u8, b_len: usize) -> u32;
    }
}

use crate::second::LONGEST_NOTE;
use raw::{notice_read, notice_render, notice_resolve, notice_same_label};

/// The most definition rows that two texts can need: `[a]:b` and an LF are the shortest definition, 6 bytes.
pub const MOST_DEFINITION_ROWS: usize = 2 * (LONGEST_NOTE / 6);
/// The most span rows that a note can need: `[a]` is the shortest span, 3 bytes.
pub const MOST_SPAN_ROWS: usize = LONGEST_NOTE / 3;

/// What the reader answers.
#[derive(Clone, Copy, Debug, PartialEq, Eq)]
pub struct Reading {
    /// 0, or the refusal's number.
    pub number: u32,
    /// What is returned with a refusal.
    pub value: u64,
    /// The count of definitions, on success.
    pub definitions: u64,
    /// The count of spans, on success.
    pub spans: u64,
    /// The text that a refusal 1 or 2 is about, 0 the note and 1 the sheet; else 0.
    pub text: u64,
}

/// What the page writer answers.
#[derive(Clone, Copy, Debug, PartialEq, Eq)]
pub struct Rendering {
    /// 0, or the refusal's number.
    pub number: u32,
    /// What is returned with a refusal.
    pub value: u64,
    /// The count of definitions, on success.
    pub definitions: u64,
    /// The count of spans, on success.
    pub spans: u64,
    /// The HTML's length in bytes, on success.
    pub length: u64,
    /// The text that a refusal 1 or 2 is about, 0 the note and 1 the sheet; else 0.
    pub text: u64,
}

/// What the enquiry answers.
#[derive(Clone, Copy, Debug, PartialEq, Eq)]
pub struct Enquiry {
    /// 0, or the refusal's number.
    pub number: u32,
    /// The destination's start, or what is returned with a refusal.
    pub value: u64,
    /// The destination's start, on success.
    pub start: u64,
    /// The destination's end, on success.
    pub end: u64,
    /// The text in which the destination stands, or that a refusal 1 or 2 is about, 0 the note and 1 the sheet; else 0.
    pub text: u64,
}

/// Reads a note with a sheet of definitions beside it and fills the two tables, or refuses; for a release, conflicting definitions too.
pub fn read(
    note: &[u8],
    sheet: &[u8],
    release: bool,
    definitions: &mut [u32],
    spans: &mut [u32],
) -> Reading {
    let mut answer = [0; 4];
    // SAFETY: each pointer and length is a slice's own, and what is written shares no byte with another slice.
    let number = unsafe {
        notice_read(
            note.as_ptr(),
            note.len(),
            sheet.as_ptr(),
            sheet.len(),
            u32::from(release),
            definitions.as_mut_ptr(),
            definitions.len(),
            spans.as_mut_ptr(),
            spans.len(),
            &mut answer,
        )
    };
    let [value, definitions, spans, text] = answer;
    Reading {
        number,
        value,
        definitions,
        spans,
        text,
    }
}

/// Reads a note with a sheet beside it, fills the two tables and writes the page, or refuses; for a release, conflicting definitions too.
pub fn render(
    note: &[u8],
    sheet: &[u8],
    release: bool,
    definitions: &mut [u32],
    spans: &mut [u32],
    page: &mut [u8],
) -> Rendering {
    let mut answer = [0; 5];
    // SAFETY: each pointer and length is a slice's own, and what is written shares no byte with another slice.
    let number = unsafe {
        notice_render(
            note.as_ptr(),
            note.len(),
            sheet.as_ptr(),
            sheet.len(),
            u32::from(release),
            definitions.as_mut_ptr(),
            definitions.len(),
            spans.as_mut_ptr(),
            spans.len(),
            page.as_mut_ptr(),
            page.len(),
            &mut answer,
        )
    };
    let [value, definitions, spans, length, text] = answer;
    Rendering {
        number,
        value,
        definitions,
        spans,
        length,
        text,
    }
}

/// Finds the destination that a note, or the sheet beside it, gives to a label.
pub fn resolve(note: &[u8], sheet: &[u8], label: &[u8]) -> Enquiry {
    let mut answer = [0; 4];
    // SAFETY: each pointer and length is a slice's own, and what is written shares no byte with another slice.
    let number = unsafe {
        notice_resolve(
            note.as_ptr(),
            note.len(),
            sheet.as_ptr(),
            sheet.len(),
            label.as_ptr(),
            label.len(),
            &mut answer,
        )
    };
    let [value, start, end, text] = answer;
    Enquiry {
        number,
        value,
        start,
        end,
        text,
    }
}

/// Compares two labels: 1 where they are equal, else 0.
pub fn same_label(a: &[u8], b: &[u8]) -> u32 {
    // SAFETY: each pointer and length is a slice's own, and both are only read.
    unsafe { notice_same_label(a.as_ptr(), a.len(), b.as_ptr(), b.len()) }
}
