//! Refusals with a sheet beside the note: the two texts in their order, their limits, and what is lent.

use super::lending::near_three_rows;
use super::Case;
use crate::second::{DEFINITION_ROW_WIDTH, LONGEST_NOTE, SPAN_ROW_WIDTH};

pub fn cases() -> Vec<Case> {
    [deep(), refusals(), bad_bytes(), lengths(), lending()]
        .into_iter()
        .flatten()
        .collect()
}

/// Refusal 4 "reads the note only".
fn deep() -> Vec<Case> {
    let open = "[".repeat(1_025);
    let deep = format!("{open}\n\n[a]: /s\n\n{open}");
    vec![
        Case::of("1,025 brackets open in the sheet", "[a]").beside(&deep),
        Case::of("1,025 brackets open in the sheet, an empty note", "")
            .beside(&deep)
            .asking("A"),
        Case::of("1,025 brackets open in both texts", format!("x {open}")).beside(&deep),
        Case::of(
            "1,024 brackets open in the note, more in the sheet",
            &open[1..],
        )
        .beside(format!("{open}\n\n[a]: b")),
    ]
}

/// A case that lends nothing.
fn refused(name: &str, note: &[u8], sheet: &[u8]) -> Case {
    Case::of(name, note).beside(sheet).rows(0, 0).page(0)
}

/// Texts for which more than one refusal applies.
fn refusals() -> Vec<Case> {
    let long = vec![b'x'; LONGEST_NOTE + 1];
    let defined = b"[a]: /n\n\n[a]";
    let deep = [defined, [b'['; 1_025].as_slice()].concat();
    let rows = |case: Case| {
        case.tables(DEFINITION_ROW_WIDTH + 3, SPAN_ROW_WIDTH + 3)
            .page(60)
    };
    vec![
        refused("a bad byte in both texts", b"a\r", b"ab\0"),
        refused("ill-formed bytes in both texts", b"a\xff", b"\xff"),
        refused("a note too long, a bad byte in the sheet", &long, b"\r"),
        refused("a bad byte in the note, a sheet too long", b"\r", &long),
        refused("a sheet too long", b"x", &long),
        rows(refused("a bad byte in the sheet", defined, b"[a]: /s\n\0")),
        rows(refused("a sheet too long, rows lent", defined, &long)),
        refused("a bad byte in the sheet, a note too deep", &deep, b"\r"),
        refused("a sheet too long and no label", b"x", &long).asking("]"),
        refused("a bad byte in the sheet and no label", b"x", b"\r").asking(""),
        refused("a bad byte in both texts and no label", b"\r", b"ab\r").asking(""),
        refused("no label, and undefined in both texts", b"x", b"y").asking("\\"),
    ]
}

/// A bad byte at the start, in the middle and at the end of the sheet.
fn bad_bytes() -> Vec<Case> {
    let sequences: [&[u8]; 9] = [
        b"\0",
        b"\r",
        b"\x80",
        b"\xc0\x80",
        b"\xc3",
        b"\xed\xa0\x80",
        b"\xe2\x82",
        b"\xf4\x90\x80\x80",
        b"\xf8\x88\x80\x80\x80",
    ];
    let mut cases = Vec::new();
    for bytes in sequences {
        let places = [
            [bytes, b"[a]: /s"].concat(),
            [b"[a]: /s\n\n\xc3\xa9 ", bytes, b" x"].concat(),
            [b"[a]: /s\n\n\xc3\xa9 ", bytes].concat(),
        ];
        for sheet in places {
            let name = format!("bad bytes in the sheet {}", sheet.escape_ascii());
            cases.push(Case::of(name, "é [a]").beside(sheet));
        }
    }
    cases
}

/// Sheets at the limit, as far as the program has room for note, sheet and label.
fn lengths() -> Vec<Case> {
    let end = "\n\n[b]: /s";
    let text = |length: usize| "a".repeat(length - end.len()) + end;
    let definitions = "[a]:b\n".repeat(5_461);
    let wide = "é".repeat(LONGEST_NOTE / 2) + "a";
    let sheets = [
        ("32,768 bytes", text(LONGEST_NOTE)),
        ("32,769 bytes", text(LONGEST_NOTE + 1)),
        ("40,000 bytes", text(40_000)),
        ("32,769 bytes of two to a character", wide),
        ("32,766 bytes of definitions", definitions),
    ];
    let mut cases: Vec<Case> = sheets
        .map(|(name, sheet)| {
            let case = Case::of(format!("a sheet of {name}"), "[b]").beside(sheet);
            case.rows(2, 1).page(60)
        })
        .into();
    let both = [
        (20_000, 20_000),
        (LONGEST_NOTE, 32_000),
        (30_000, LONGEST_NOTE),
    ];
    cases.extend(both.map(|(note, sheet)| {
        let name = format!("a note of {note} bytes and a sheet of {sheet}");
        let note = "a ".repeat(note / 2 - 2) + "[b]\n";
        Case::of(name, note).beside(text(sheet)).rows(1, 1)
    }));
    cases
}

/// Rows of both texts, with tables of every size near the need.
fn lending() -> Vec<Case> {
    let split = [
        ("[a]: /1 't'\n\n[a] `x` [t][b]", "[b]: <2>\n[c]: 3"),
        ("[a]: /1 't'\n[b]: <2>\n\n[a] `x` [t][b]", "text\n\n[c]: 3"),
        ("[a] `x` [t][b]", "[a]: /1 't'\n[b]: <2>\n[c]: 3"),
    ];
    let mut cases = Vec::new();
    for (note, sheet) in split {
        for lent in near_three_rows(DEFINITION_ROW_WIDTH) {
            let name = format!("three definitions in two texts, {lent} numbers lent");
            let case = Case::of(name, note).beside(sheet);
            cases.push(case.tables(lent, 3 * SPAN_ROW_WIDTH + 3));
        }
    }
    let (note, sheet) = split[0];
    let case = |name: &str| Case::of(name, note).beside(sheet);
    cases.extend([
        case("rows of two texts, too few span rows").rows(3, 2),
        case("rows of two texts, too short a page")
            .rows(3, 3)
            .page(20),
        case("rows of two texts, all too few").rows(2, 2).page(0),
    ]);
    cases
}
