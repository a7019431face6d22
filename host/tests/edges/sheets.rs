//! A sheet of definitions beside the note (document 02, request 1).

use super::{check_beside, found, refused, refused_enquiry};
use host::second::{self, ReadAnswer, ResolveAnswer};
use host::second::{DEFINITION_ROW_WIDTH, SPAN_ROW_WIDTH};

const NOTE: &str = "[a]: /n\n\n[a] [b]";
const SHEET: &str = "[b]: /s 't'\n[A]: /x";

/// The same answer, about the sheet.
fn of_sheet(answer: ResolveAnswer) -> ResolveAnswer {
    ResolveAnswer { text: 1, ..answer }
}

#[test]
fn the_notes_definitions_then_the_sheets() {
    let definitions = [
        [0, 1, 2, 5, 7, 0, 0, 1],
        [1, 1, 2, 5, 7, 9, 10, 1],
        [1, 13, 14, 17, 19, 0, 0, 2],
    ];
    let spans = [
        [5, 9, 12, 10, 11, 1, 5, 7, 0, 0, 3],
        [5, 13, 16, 14, 15, 2, 5, 7, 9, 10, 3],
    ];
    let page = "<p><a href=\"/n\">a</a> <a href=\"/s\" title=\"t\">b</a></p>\n";
    check_beside(SHEET, NOTE, &definitions, &spans, page);
}

#[test]
fn the_text_that_defines_the_label() {
    let resolve =
        |label: &str| second::resolve(NOTE.as_bytes(), SHEET.as_bytes(), label.as_bytes());
    assert_eq!(resolve("a"), found(5, 7));
    assert_eq!(resolve(" A\n"), found(5, 7));
    assert_eq!(resolve("B"), of_sheet(found(5, 7)));
    assert_eq!(resolve("c"), refused_enquiry(7, 0));
    assert_eq!(resolve("]"), refused_enquiry(8, 0));
    let empty = second::resolve(b"x", b"[a]: <>", b"a");
    assert_eq!(empty, of_sheet(found(6, 6)));
}

#[test]
fn the_whole_example_in_two_texts() {
    check_beside(
        "[max]: /q2/max \"June\"\n",
        "Use [max].\n",
        &[[1, 1, 4, 7, 14, 16, 20, 1]],
        &[[5, 4, 9, 5, 8, 1, 7, 14, 16, 20, 1]],
        "<p>Use <a href=\"/q2/max\" title=\"June\">max</a>.</p>\n",
    );
}

#[test]
fn the_sheets_paragraphs_are_ignored() {
    let open = "[".repeat(1_025);
    check_beside(
        &format!("x [c](d)\n\n[a]: /s\ny `z`\n\n{open}"),
        "[a]",
        &[[1, 11, 12, 15, 17, 0, 0, 3]],
        &[[5, 0, 3, 1, 2, 1, 15, 17, 0, 0, 1]],
        "<p><a href=\"/s\">a</a></p>\n",
    );
    // "Nothing later in a block is a definition."
    check_beside("x\n[a]: /s", "[a]", &[], &[], "<p>[a]</p>\n");
    // Nothing goes on from one text to the other.
    check_beside("/s", "[a]:", &[], &[], "<p>[a]:</p>\n");
    check_beside("b`](c)", "[`a", &[], &[], "<p>[`a</p>\n");
}

#[test]
fn lines_of_the_sheet() {
    check_beside(
        "\n\n[a]:\n/u\n[b]: /v",
        "x\n[b]",
        &[[1, 3, 4, 7, 9, 0, 0, 3], [1, 11, 12, 15, 17, 0, 0, 5]],
        &[[5, 2, 5, 3, 4, 2, 15, 17, 0, 0, 2]],
        "<p>x\n<a href=\"/v\">b</a></p>\n",
    );
}

#[test]
fn places_lie_in_the_text_that_the_row_names() {
    // An inline link's in the note, a reference's where it is defined; at the same places stands something else.
    check_beside(
        "[s]: /sss",
        "[n](/nnn)[s]",
        &[[1, 1, 2, 5, 9, 0, 0, 1]],
        &[
            [2, 0, 9, 1, 2, 0, 4, 8, 0, 0, 1],
            [5, 9, 12, 10, 11, 1, 5, 9, 0, 0, 1],
        ],
        "<p><a href=\"/nnn\">n</a><a href=\"/sss\">s</a></p>\n",
    );
}

/// A sheet that defines only labels that the note defines too changes no span row and no byte of the page.
#[test]
fn a_sheet_of_hidden_definitions() {
    let note = "[a]: /1\n[b]: /2 't'\n\n[a] [x][B] `c`";
    let render =
        |sheet: &str| second::render(note.as_bytes(), sheet.as_bytes(), false, 100, 100, 200);
    let [alone, beside] = ["", "[B]: /3\n\n[ a ]: /4 'u'\n[b]: /5"].map(render);
    assert_eq!((alone.definition_count, beside.definition_count), (2, 5));
    assert_eq!(
        (&alone.span_rows, &alone.page),
        (&beside.span_rows, &beside.page)
    );
}

/// The reader, with nothing lent.
fn read(note: &[u8], sheet: &[u8]) -> ReadAnswer {
    second::read(note, sheet, false, 0, 0)
}

#[test]
fn refusals_of_the_two_texts_in_order() {
    let long = vec![b'x'; 32_769];
    let bad: &[u8] = b"ab\r";
    let none = |number, value, text| ReadAnswer {
        text,
        ..refused(number, value)
    };
    let asked = |number, value, text| ResolveAnswer {
        text,
        ..refused_enquiry(number, value)
    };
    // Note 1, note 2, sheet 1, sheet 2.
    let texts: [(&[u8], &[u8], (u32, usize, usize)); 8] = [
        (&long, &long, (1, 32_769, 0)),
        (&long, bad, (1, 32_769, 0)),
        (bad, &long, (2, 2, 0)),
        (b"a\xff", b"\xff", (2, 1, 0)),
        (bad, b"", (2, 2, 0)),
        (b"x", &long, (1, 32_769, 1)),
        (b"[a]: /u", bad, (2, 2, 1)),
        (b"", b"\xc3", (2, 0, 1)),
    ];
    for (note, sheet, (number, value, text)) in texts {
        assert_eq!(read(note, sheet), none(number, value, text));
        // The label is none, and is checked after both texts.
        assert_eq!(
            second::resolve(note, sheet, b"]"),
            asked(number, value, text)
        );
    }
    assert_eq!(second::resolve(b"x", b"y", b"]"), asked(8, 0, 0));
    assert_eq!(second::resolve(b"x", b"y", b"z"), asked(7, 0, 0));
}

#[test]
fn each_text_has_its_own_limit() {
    let end = "\n\n[b]: /s";
    let sheet = "a".repeat(32_768 - end.len()) + end;
    let note = "a".repeat(32_768 - 4) + " [b]";
    let [note, sheet] = [&note, &sheet].map(|text| text.as_bytes());
    let answer = second::read(note, sheet, false, DEFINITION_ROW_WIDTH, SPAN_ROW_WIDTH);
    assert_eq!((answer.number, answer.text), (0, 0));
    let definition = [1, 32_762, 32_763, 32_766, 32_768, 0, 0, 3];
    assert_eq!(answer.definition_rows, Some(vec![definition]));
    let span = [
        5, 32_765, 32_768, 32_766, 32_767, 1, 32_766, 32_768, 0, 0, 1,
    ];
    assert_eq!(answer.span_rows, Some(vec![span]));
    let wanted = of_sheet(found(32_766, 32_768));
    assert_eq!(second::resolve(note, sheet, b"B"), wanted);
}

#[test]
fn refusal_3_counts_both_texts() {
    let [note, sheet] = [NOTE, SHEET].map(str::as_bytes);
    for lent in [0, DEFINITION_ROW_WIDTH, 3 * DEFINITION_ROW_WIDTH - 1] {
        let answer = second::read(note, sheet, false, lent, 100);
        assert_eq!(answer, refused(3, 3), "{lent} numbers lent");
    }
    let answer = second::read(note, sheet, false, 3 * DEFINITION_ROW_WIDTH, 100);
    assert_eq!(answer.number, 0);
    // A note without definitions, beside a sheet with one.
    assert_eq!(second::read(b"", b"[a]: b", false, 7, 0), refused(3, 1));
}

#[test]
fn refusals_4_to_6_name_no_text() {
    let open = "[".repeat(1_025);
    let deep = format!("[b] {open}");
    let read =
        |note: &str, spans| second::read(note.as_bytes(), SHEET.as_bytes(), false, 100, spans);
    let [depth, rows] = [read(&deep, 100), read(NOTE, 2 * SPAN_ROW_WIDTH - 1)];
    assert_eq!((depth.number, depth.value, depth.text), (4, 4 + 1_024, 0));
    assert_eq!(depth.definition_rows.map(|rows| rows.len()), Some(2));
    assert_eq!((rows.number, rows.value, rows.text), (5, 2, 0));
    assert_eq!(rows.definition_rows.map(|rows| rows.len()), Some(3));
    let page = second::render(NOTE.as_bytes(), SHEET.as_bytes(), false, 100, 100, 54);
    assert_eq!((page.number, page.value, page.text), (6, 55, 0));
}
