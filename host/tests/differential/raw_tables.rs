//! The reader and the page writer as C sees them: any number but 0 is a release.

#![allow(unsafe_code)]

use crate::raw::{guarded, lent, read_only, NOTE, SHEET};
use host::entries::raw::{notice_read, notice_render};
use host::second::{self, ReadAnswer, RenderAnswer, DEFINITION_ROW_WIDTH, SPAN_ROW_WIDTH};

/// A sheet that conflicts with the note.
const CONFLICT: &[u8] = b"[A]: /s\n";
/// The numbers of the rows of the note and one sheet.
const DEFINITIONS: usize = 3 * DEFINITION_ROW_WIDTH;
const SPANS: usize = 2 * SPAN_ROW_WIDTH;

/// What is given for the setting: no, and yes in every byte of a number.
const SETTINGS: [u32; 8] = [0, 1, 2, 256, 65_536, 1 << 24, 1 << 31, u32::MAX];

/// A note and a sheet with the numbers lent to each table and the page.
struct Given {
    note: Vec<u8>,
    sheet: Vec<u8>,
    lent: [usize; 3],
}

/// Memory that is lent: both tables and the page, each number and byte a 7.
#[derive(Debug, PartialEq, Eq)]
struct Memory {
    definitions: Vec<u32>,
    spans: Vec<u32>,
    page: Vec<u8>,
}

impl Given {
    fn of(note: &[u8], sheet: &[u8], lent: [usize; 3]) -> Given {
        Given {
            note: note.to_vec(),
            sheet: sheet.to_vec(),
            lent,
        }
    }

    fn memory(&self) -> Memory {
        let [definition_numbers, span_numbers, page_bytes] = self.lent;
        Memory {
            definitions: vec![7; definition_numbers],
            spans: vec![7; span_numbers],
            page: vec![7; page_bytes],
        }
    }

    /// What is wanted of the page writer, and of the memory.
    fn rendered(&self, release: bool) -> (RenderAnswer, Memory) {
        let [definition_numbers, span_numbers, page_bytes] = self.lent;
        let wanted = second::render(
            &self.note,
            &self.sheet,
            release,
            definition_numbers,
            span_numbers,
            page_bytes,
        );
        let before = self.memory();
        let memory = Memory {
            definitions: wanted.definition_table(&before.definitions),
            spans: wanted.span_table(&before.spans),
            page: wanted.page_buffer(&before.page),
        };
        (wanted, memory)
    }

    /// The same of the reader, which has no page.
    fn read(&self, release: bool) -> (ReadAnswer, Memory) {
        let [definition_numbers, span_numbers, _] = self.lent;
        let wanted = second::read(
            &self.note,
            &self.sheet,
            release,
            definition_numbers,
            span_numbers,
        );
        let before = self.memory();
        let memory = Memory {
            definitions: wanted.definition_table(&before.definitions),
            spans: wanted.span_table(&before.spans),
            ..before
        };
        (wanted, memory)
    }
}

/// One or more for each answer about each text.
fn given() -> Vec<Given> {
    let deep = [NOTE, &[b'['; 1_025]].concat();
    let long = [b'a'; 32_769];
    let all = [DEFINITIONS, SPANS, 41];
    vec![
        Given::of(b"", b"", [0, 0, 0]),
        Given::of(&long, b"\r", [0, 0, 0]),
        Given::of(b"ab\r", &long, [0, 0, 0]),
        Given::of(b"", &long, [0, 0, 0]),
        Given::of(NOTE, b"abc\r", all),
        Given::of(NOTE, SHEET, [0, 0, 0]),
        Given::of(&deep, SHEET, [DEFINITIONS, 0, 0]),
        Given::of(NOTE, SHEET, [DEFINITIONS, 0, 0]),
        Given::of(NOTE, SHEET, [DEFINITIONS, SPANS, 0]),
        Given::of(NOTE, SHEET, all),
        Given::of(NOTE, b"", all),
        Given::of(b"", SHEET, all),
        Given::of(NOTE, CONFLICT, all),
        Given::of(NOTE, CONFLICT, [DEFINITIONS, 0, 0]),
        Given::of(NOTE, CONFLICT, [DEFINITIONS - 1, 0, 0]),
        Given::of(NOTE, NOTE, [4 * DEFINITION_ROW_WIDTH, SPANS, 41]),
    ]
}

/// The numbers and the texts of the answers for no release.
const CAME_UP: [(u32, usize); 16] = [
    (0, 0),
    (1, 0),
    (2, 0),
    (1, 1),
    (2, 1),
    (3, 0),
    (4, 0),
    (5, 0),
    (6, 0),
    (0, 0),
    (0, 0),
    (0, 0),
    (0, 0),
    (5, 0),
    (3, 0),
    (0, 0),
];
/// Those that are refusal 9 for a release.
const STOPPED: [usize; 2] = [12, 13];

/// Calls the reader with a setting, and compares its answer and the memory.
fn compare_reader(given: &Given, setting: u32) {
    let Given { note, sheet, .. } = given;
    let (wanted, memory) = given.read(setting != 0);
    let mut left = given.memory();
    let (definitions, spans) = (&mut left.definitions, &mut left.spans);
    // SAFETY: each pointer and length is a vector's own, or null and 0.
    let answer = guarded(|answer| unsafe {
        notice_read(
            read_only(note),
            note.len(),
            read_only(sheet),
            sheet.len(),
            setting,
            lent(definitions),
            definitions.len(),
            lent(spans),
            spans.len(),
            answer,
        )
    });
    let numbers = [
        wanted.value,
        wanted.definition_count,
        wanted.span_count,
        wanted.text,
    ];
    let numbers = numbers.map(|number| number as u64);
    assert_eq!(answer, (wanted.number, numbers), "setting {setting}");
    assert_eq!(left, memory, "setting {setting}");
}

#[test]
fn answers_of_the_reader() {
    for given in given() {
        let each = SETTINGS.into_iter();
        each.for_each(|setting| compare_reader(&given, setting));
    }
}

/// The same of the page writer; what came up.
fn compare_page_writer(given: &Given, setting: u32) -> (u32, usize) {
    let Given { note, sheet, .. } = given;
    let (wanted, memory) = given.rendered(setting != 0);
    let mut left = given.memory();
    let (definitions, spans, page) = (&mut left.definitions, &mut left.spans, &mut left.page);
    // SAFETY: each pointer and length is a vector's own, or null and 0.
    let answer = guarded(|answer| unsafe {
        notice_render(
            read_only(note),
            note.len(),
            read_only(sheet),
            sheet.len(),
            setting,
            lent(definitions),
            definitions.len(),
            lent(spans),
            spans.len(),
            lent(page),
            page.len(),
            answer,
        )
    });
    let numbers = [
        wanted.value,
        wanted.definition_count,
        wanted.span_count,
        wanted.page_length,
        wanted.text,
    ];
    let numbers = numbers.map(|number| number as u64);
    assert_eq!(answer, (wanted.number, numbers), "setting {setting}");
    assert_eq!(left, memory, "setting {setting}");
    (wanted.number, wanted.text)
}

#[test]
fn answers_of_the_page_writer() {
    for setting in SETTINGS {
        let given = given();
        let came_up = given
            .iter()
            .map(|given| compare_page_writer(given, setting));
        let mut wanted = CAME_UP;
        for index in STOPPED.into_iter().filter(|_| setting != 0) {
            wanted[index] = (9, 0);
        }
        assert_eq!(came_up.collect::<Vec<_>>(), wanted, "setting {setting}");
    }
}
