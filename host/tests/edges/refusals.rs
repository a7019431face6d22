//! Refusals.

use super::{check, found, page, read, refused, refused_enquiry, resolve};
use host::second::{self, DefinitionRow, ReadAnswer, RenderAnswer, SpanRow};
use host::second::{DEFINITION_ROW_WIDTH, SPAN_ROW_WIDTH};

const NOTE: &str = "[a]: /x\n[b]: /y\n\n`c` [a]\n";
const NOTE_DEFINITIONS: [DefinitionRow; 2] =
    [[0, 1, 2, 5, 7, 0, 0, 1], [0, 9, 10, 13, 15, 0, 0, 2]];
const NOTE_SPANS: [SpanRow; 2] = [
    [1, 17, 20, 18, 19, 0, 0, 0, 0, 0, 4],
    [5, 21, 24, 22, 23, 1, 5, 7, 0, 0, 4],
];
/// The numbers of its two definition rows, and of its two span rows.
const DEFINITIONS: usize = 2 * DEFINITION_ROW_WIDTH;
const SPANS: usize = 2 * SPAN_ROW_WIDTH;
const NOTE_PAGE: &str = "<p><code>c</code> <a href=\"/x\">a</a></p>\n";

#[test]
fn the_note_of_the_refusals() {
    assert_eq!(NOTE_PAGE.len(), 41);
    check(NOTE, &NOTE_DEFINITIONS, &NOTE_SPANS, NOTE_PAGE);
}

#[test]
fn refusals_in_order() {
    let deep = format!("[a]: /x\n[b]: /y\n\n`c`{}", "[".repeat(1_025));
    let ill_formed = format!("{deep}\r");
    let too_long = ill_formed.clone() + &" ".repeat(32_769 - ill_formed.len());

    // Everything is wrong; then one thing after another is put right.
    assert_eq!(
        second::read(too_long.as_bytes(), b"", false, 0, 0),
        refused(1, 32_769)
    );
    assert_eq!(
        second::read(ill_formed.as_bytes(), b"", false, 0, 0),
        refused(2, 20 + 1_025)
    );
    assert_eq!(
        second::read(deep.as_bytes(), b"", false, 0, 0),
        refused(3, 2)
    );
    assert_eq!(
        second::read(deep.as_bytes(), b"", false, DEFINITIONS - 1, 0),
        refused(3, 2)
    );
    let with_definitions = |number, value| ReadAnswer {
        definition_rows: Some(NOTE_DEFINITIONS.to_vec()),
        ..refused(number, value)
    };
    assert_eq!(
        second::read(deep.as_bytes(), b"", false, DEFINITIONS, 0),
        with_definitions(4, 20 + 1_024)
    );
    assert_eq!(
        second::read(NOTE.as_bytes(), b"", false, DEFINITIONS, 0),
        with_definitions(5, 2)
    );
    assert_eq!(
        second::read(NOTE.as_bytes(), b"", false, DEFINITIONS, SPANS - 1),
        with_definitions(5, 2)
    );
    assert_eq!(
        second::read(NOTE.as_bytes(), b"", false, DEFINITIONS, SPANS).number,
        0
    );
}

#[test]
fn refusals_of_the_page_writer() {
    let deep = format!("[a]: /x\n[b]: /y\n\n`c`{}", "[".repeat(1_025));
    let none = RenderAnswer {
        number: 0,
        value: 0,
        definition_count: 0,
        span_count: 0,
        page_length: 0,
        text: 0,
        definition_rows: None,
        span_rows: None,
        page: None,
    };
    let refused = |number, value| RenderAnswer {
        number,
        value,
        ..none.clone()
    };
    let with_definitions = |number, value| RenderAnswer {
        definition_rows: Some(NOTE_DEFINITIONS.to_vec()),
        ..refused(number, value)
    };
    let long = vec![0; 32_769];
    assert_eq!(
        second::render(&long, b"", false, 0, 0, 0),
        refused(1, 32_769)
    );
    assert_eq!(
        second::render(&long[..9], b"", false, 0, 0, 0),
        refused(2, 0)
    );
    assert_eq!(
        second::render(deep.as_bytes(), b"", false, DEFINITIONS - 1, 0, 0),
        refused(3, 2)
    );
    assert_eq!(
        second::render(deep.as_bytes(), b"", false, DEFINITIONS, 0, 0),
        with_definitions(4, 20 + 1_024)
    );
    let note = NOTE.as_bytes();
    assert_eq!(
        second::render(note, b"", false, DEFINITIONS, SPANS - 1, 0),
        with_definitions(5, 2)
    );
    let short_page = RenderAnswer {
        span_rows: Some(NOTE_SPANS.to_vec()),
        ..with_definitions(6, 41)
    };
    assert_eq!(
        second::render(note, b"", false, DEFINITIONS, SPANS, 0),
        short_page
    );
    assert_eq!(
        second::render(note, b"", false, DEFINITIONS, SPANS, 40),
        short_page
    );
    assert_eq!(
        second::render(note, b"", false, DEFINITIONS, SPANS, 41).number,
        0
    );
}

#[test]
fn memory_past_the_part_in_use_is_unchanged() {
    let note = NOTE.as_bytes();
    let definitions_before = [7; DEFINITIONS + 3];
    let spans_before = [8; SPANS + 3];
    let page_before = [9; 45];
    let table_with_rows = |rows: Vec<u32>, rest: &[u32]| [rows, rest.to_vec()].concat();
    let definitions_after = table_with_rows(NOTE_DEFINITIONS.concat(), &[7; 3]);
    let spans_after = table_with_rows(NOTE_SPANS.concat(), &[8; 3]);

    let answer = second::render(note, b"", false, DEFINITIONS + 3, SPANS + 3, 45);
    assert_eq!(
        answer.definition_table(&definitions_before),
        definitions_after
    );
    assert_eq!(answer.span_table(&spans_before), spans_after);
    assert_eq!(
        answer.page_buffer(&page_before),
        [NOTE_PAGE.as_bytes(), &[9; 4]].concat()
    );
    let answer = second::render(note, b"", false, DEFINITIONS + 3, SPANS + 3, 40);
    assert_eq!(
        answer.definition_table(&definitions_before),
        definitions_after
    );
    assert_eq!(answer.span_table(&spans_before), spans_after);
    assert_eq!(answer.page_buffer(&page_before[..40]), [9; 40]);

    let answer = second::read(note, b"", false, DEFINITIONS + 3, SPANS - 1);
    assert_eq!(
        answer.definition_table(&definitions_before),
        definitions_after
    );
    let too_few = &spans_before[..SPANS - 1];
    assert_eq!(answer.span_table(too_few), too_few);
    let answer = second::read(note, b"", false, DEFINITIONS - 1, SPANS + 3);
    let too_few = &definitions_before[..DEFINITIONS - 1];
    assert_eq!(answer.definition_table(too_few), too_few);
    assert_eq!(answer.span_table(&spans_before), spans_before);
}

#[test]
fn refusal_2_where_the_first_bad_character_starts() {
    // Ill-formed by table 3-7: overlong, surrogates, too large, alone, cut short.
    let sequences: [&[u8]; 21] = [
        &[0x00],
        &[0x0d],
        &[0x80],
        &[0xbf],
        &[0xc0, 0x80],
        &[0xc1, 0xbf],
        &[0xc3],
        &[0xc3, 0x28],
        &[0xe0, 0x80, 0x80],
        &[0xe0, 0x9f, 0xbf],
        &[0xe2, 0x82],
        &[0xe2, 0x82, 0x28],
        &[0xed, 0xa0, 0x80],
        &[0xed, 0xbf, 0xbf],
        &[0xf0, 0x8f, 0xbf, 0xbf],
        &[0xf0, 0x9f, 0x98],
        &[0xf4, 0x90, 0x80, 0x80],
        &[0xf5, 0x80, 0x80, 0x80],
        &[0xf8, 0x88, 0x80, 0x80, 0x80],
        &[0xfe],
        &[0xff],
    ];
    for sequence in sequences {
        let before = "é: ".as_bytes();
        assert_eq!(read(&[before, sequence].concat()), refused(2, 4));
        let after = [before, sequence, b" and \0 more"].concat();
        assert_eq!(read(&after), refused(2, 4), "{sequence:x?}");
        let nul_first = [b"ab\0", sequence].concat();
        assert_eq!(read(&nul_first), refused(2, 2), "{sequence:x?}");
        let return_first = [b"abc\r", sequence].concat();
        assert_eq!(read(&return_first), refused(2, 3), "{sequence:x?}");
    }
    // The bounds of table 3-7, all well-formed.
    for good in "\u{1}\u{7f}\u{80}\u{7ff}\u{800}\u{fff}\u{1000}\u{cfff}\u{d000}\u{d7ff}\u{e000}\
                 \u{ffff}\u{10000}\u{3ffff}\u{40000}\u{fffff}\u{100000}\u{10ffff}"
        .chars()
    {
        assert_eq!(page(&format!("a{good}")), format!("<p>a{good}</p>\n"));
    }
}

#[test]
fn enquiries() {
    let note = NOTE.as_bytes();
    assert_eq!(resolve(note, b"a"), found(5, 7));
    assert_eq!(resolve(note, b" B\n"), found(13, 15));
    assert_eq!(resolve(note, b"c"), refused_enquiry(7, 0));
    // Not exactly one label.
    let no_labels: [&[u8]; 13] = [
        b"", b" ", b" \t\n", b"a]", b"]", b"[", b"[a]", b"a\\", b"a][b", b"a\0", b"a\r", b"\xff",
        b"a\xc3",
    ];
    for label in no_labels {
        assert_eq!(resolve(note, label), refused_enquiry(8, 0), "{label:?}");
    }
    for label in ["\\]", "\\[", "\\\\", "a\\b"] {
        assert_eq!(
            resolve(note, label.as_bytes()),
            refused_enquiry(7, 0),
            "{label:?}"
        );
    }
    // "The enquiry checks 1, 2, 8, 7."
    let long = [b'a'; 32_769];
    assert_eq!(resolve(&long, b""), refused_enquiry(1, 32_769));
    assert_eq!(resolve(b"abc\r", b""), refused_enquiry(2, 3));
    // And no other: brackets too deep are no matter of the enquiry's.
    let deep = format!("{}\n\n[a]: b", "[".repeat(1_025));
    assert_eq!(resolve(deep.as_bytes(), b"a"), found(1_032, 1_033));
}

#[test]
fn enquiries_of_special_destinations() {
    // "a destination `<>` is empty too, and only the answer number tells them apart".
    assert_eq!(resolve(b"[a]: <>", b"a"), found(6, 6));
    // "escapes undone nowhere".
    assert_eq!(resolve(b"[a]: b\\!", b"a"), found(5, 8));
    // The first of equal labels.
    assert_eq!(resolve(b"[a]: 1\n[A]: 2", b"A"), found(5, 6));
    // Bytes with two LFs in a row can be a label for the enquiry.
    assert_eq!(resolve(b"[a b]: 1", b"a\n\nb"), found(7, 8));
    // "Undoing escapes before comparing labels: `[foo\!]` is not `[foo!]`."
    assert_eq!(resolve(b"[foo\\!]: 1", b"foo!"), refused_enquiry(7, 0));
    assert_eq!(resolve(b"[foo\\!]: 1", b"FOO\\!"), found(9, 10));
    // "Later characters match themselves" (document 02, request 3).
    assert_eq!(resolve("[É]: 1".as_bytes(), "é".as_bytes()), found(6, 7));
    assert_eq!(
        resolve("[\u{2126}]: 1".as_bytes(), "\u{3c9}".as_bytes()),
        refused_enquiry(7, 0)
    );
}
