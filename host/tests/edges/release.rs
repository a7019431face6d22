//! A release stops on conflicting definitions (document 02, request 8).

use super::refused;
use host::cases::release::{written, DIFFERENT, LISTS, SAME};
use host::second::{self, DefinitionRow, ReadAnswer, RenderAnswer};
use host::second::{DEFINITION_ROW_WIDTH, SPAN_ROW_WIDTH};

/// Refusal 9 with this row number, and these rows in a definition table that has just room for them.
fn check_conflict([note, sheet]: [&str; 2], value: usize, definition_rows: &[DefinitionRow]) {
    let [note_bytes, sheet_bytes] = [note, sheet].map(str::as_bytes);
    let count = definition_rows.len();
    let numbers = count * DEFINITION_ROW_WIDTH;
    let wanted = RenderAnswer {
        number: 9,
        value,
        definition_count: 0,
        span_count: 0,
        page_length: 0,
        text: 0,
        definition_rows: Some(definition_rows.to_vec()),
        span_rows: None,
        page: None,
    };
    for (spans, page) in [(0, 0), (200, 400)] {
        let answer = second::render(note_bytes, sheet_bytes, true, numbers, spans, page);
        assert_eq!(answer, wanted, "{note:?} {sheet:?}");
    }
    let answer = second::read(note_bytes, sheet_bytes, true, numbers, 200);
    assert_eq!(answer, wanted.without_page(), "{note:?} {sheet:?}");
    // A number less, and it is refusal 3.
    let answer = second::read(note_bytes, sheet_bytes, true, numbers - 1, 200);
    assert_eq!(answer, refused(3, count), "{note:?} {sheet:?}");
}

/// The reader's answer for a release, with more lent than these texts need.
fn released(note: &str, sheet: &str) -> ReadAnswer {
    second::read(note.as_bytes(), sheet.as_bytes(), true, 100_000, 1_000)
}

/// Passes: for a release the answer is the one for none.
fn check_passes(note: &str, sheet: &str) {
    let [note_bytes, sheet_bytes] = [note, sheet].map(str::as_bytes);
    let [yes, no] = [true, false]
        .map(|release| second::render(note_bytes, sheet_bytes, release, 100_000, 1_000, 1_000));
    assert_eq!(yes.number, 0, "{note:?} {sheet:?}");
    assert_eq!(yes, no, "{note:?} {sheet:?}");
}

#[test]
fn p12_is_refused() {
    let note = "[foo]\n\n[foo]: first\n[foo]: second";
    let rows = [[0, 8, 11, 14, 19, 0, 0, 3], [0, 21, 24, 27, 33, 0, 0, 4]];
    check_conflict([note, ""], 2, &rows);
}

#[test]
fn a_conflict_of_note_and_sheet() {
    let rows = [
        [0, 1, 2, 5, 7, 0, 0, 1],
        [1, 1, 2, 5, 7, 0, 0, 1],
        [1, 9, 10, 13, 15, 17, 18, 2],
    ];
    check_conflict(["[a]: /n\n\n[a] [b]", "[b]: /n\n[A]: /n 't'"], 3, &rows);
    let rows = [[0, 1, 2, 5, 7, 0, 0, 1], [1, 1, 2, 5, 7, 0, 0, 1]];
    check_conflict(["[a]: /n\n\n[a]", "[a]: /s"], 2, &rows);
    let rows = [[1, 1, 2, 5, 7, 0, 0, 1], [1, 11, 12, 15, 15, 0, 0, 3]];
    check_conflict(["[a]", "[a]: /s\n\n [a]:<>"], 2, &rows);
}

/// Two definitions of a label in the note, in either order, one in each text, and both in the sheet.
fn placed([one, other]: [&str; 2]) -> [[String; 2]; 4] {
    let [one, other] = [one, other].map(|said| format!("[a]: {said}\n"));
    let [first, second] = [format!("{one}{other}"), format!("{other}{one}")];
    let none = String::new;
    [
        [first.clone(), none()],
        [second, none()],
        [one, other],
        [none(), first],
    ]
}

/// "Identical repeats still pass."
#[test]
fn identical_repeats_pass() {
    for [note, sheet] in SAME.iter().flat_map(|said| placed(*said)) {
        check_passes(&note, &sheet);
    }
    // Other labels, and what is no definition.
    let labels = "[a]: /1\n[b]: /2\n[a\\!]: /3\n[a!]: /4\n[k]: /5\n[\u{212a}]: /6";
    check_passes(labels, "[c]: /7");
    check_passes("[a]: /1\n\nx\n[a]: /2\n\n[a]: /3 y", "z\n[a]: /4");
}

#[test]
fn what_differs() {
    for [note, sheet] in DIFFERENT.iter().flat_map(|said| placed(*said)) {
        let answer = released(&note, &sheet);
        let given = (answer.number, answer.value, answer.text);
        assert_eq!(given, (9, 2, 0), "{note:?} {sheet:?}");
    }
}

#[test]
fn the_first_that_differs() {
    for (list, value) in LISTS {
        let [note, sheet] = written(list);
        if *value == 0 {
            check_passes(&note, &sheet);
            continue;
        }
        let answer = released(&note, &sheet);
        let given = (answer.number, answer.value, answer.text);
        assert_eq!(given, (9, *value, 0), "{list}");
    }
}

/// "Checked after 3"; and before 4, 5 and 6.
#[test]
fn refusals_in_order() {
    let conflict = "[a]: /1\n[a]: /2\n\n[a]";
    let deep = format!("{conflict}{}", "[".repeat(1_025));
    let bad = format!("{deep}\r");
    let long = bad.clone() + &" ".repeat(32_769 - bad.len());
    let numbers = 2 * DEFINITION_ROW_WIDTH;
    let read = |note: &str, sheet: &str, numbers, spans| {
        let answer = second::read(note.as_bytes(), sheet.as_bytes(), true, numbers, spans);
        (answer.number, answer.value, answer.text)
    };
    // Everything is wrong; then one thing after another is put right.
    assert_eq!(read(&long, &long, 0, 0), (1, 32_769, 0));
    assert_eq!(read(&bad, &long, 0, 0), (2, 20 + 1_025, 0));
    assert_eq!(read(&deep, &long, 0, 0), (1, 32_769, 1));
    assert_eq!(read(&deep, &bad, 0, 0), (2, 20 + 1_025, 1));
    assert_eq!(read(&deep, "", numbers - 1, 0), (3, 2, 0));
    assert_eq!(read(&deep, "", numbers, 0), (9, 2, 0));
    let deep = deep.replace("/2", "/1");
    assert_eq!(read(&deep, "", numbers, 0), (4, 20 + 1_024, 0));
    assert_eq!(read(conflict, "", numbers, 0), (9, 2, 0));
    let repeat = conflict.replace("/2", "/1");
    assert_eq!(read(&repeat, "", numbers, 0), (5, 1, 0));
    let render = |note: &str| {
        let note = note.as_bytes();
        let answer = second::render(note, b"", true, numbers, SPAN_ROW_WIDTH, 25);
        (answer.number, answer.value, answer.text)
    };
    assert_eq!(render(conflict), (9, 2, 0));
    // `<p><a href="/1">a</a></p>` and LF.
    assert_eq!(render(&repeat), (6, 26, 0));
}

/// The rows of so many definitions `[a]:b`, one to a line, in the text with this number.
fn rows_of(text: u32, count: u32) -> Vec<DefinitionRow> {
    let row = |index: u32| {
        let start = 6 * index;
        let [label, destination] = [start + 1, start + 4];
        let line = index + 1;
        [
            text,
            label,
            label + 1,
            destination,
            destination + 1,
            0,
            0,
            line,
        ]
    };
    (0..count).map(row).collect()
}

#[test]
fn the_most_definitions_of_one_label() {
    let repeats = "[a]:b\n".repeat(5_461);
    let last = "[a]:b\n".repeat(5_460) + "[a]:c\n";
    let second = "[a]:b\n[a]:c\n".to_string() + &"[a]:b\n".repeat(5_459);
    assert_eq!([&repeats, &last, &second].map(String::len), [32_766; 3]);
    let own = rows_of(0, 5_461);
    check_passes(&repeats, "");
    check_conflict([&last, ""], 5_461, &own);
    check_conflict([&second, ""], 2, &own);
    let both = [own, rows_of(1, 5_461)].concat();
    check_passes(&repeats, &repeats);
    check_conflict([&repeats, &last], 10_922, &both);
    check_conflict([&second, &last], 2, &both);
}

/// Labels that all differ, and then the first or the last of them again.
#[test]
fn many_labels() {
    let note: String = (0..3_000).map(|label| format!("[{label}]:b\n")).collect();
    for (sheet, value) in [
        ("[0]:c", 3_001),
        ("[2999]:c", 3_001),
        ("[0]:b\n[7]:b\n[7]:c", 3_003),
    ] {
        let answer = released(&note, sheet);
        assert_eq!((answer.number, answer.value), (9, value), "{sheet}");
    }
    check_passes(&note, "[0]:b\n[2999]: <b>");
}
