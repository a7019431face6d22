//! Limits: the length of a note, of a label, and brackets open at once.

use super::{Case, DEFINITION_ROOM};
use crate::second::{DEFINITION_ROW_WIDTH, LONGEST_NOTE, SPAN_ROW_WIDTH};

pub fn cases() -> Vec<Case> {
    [
        short_notes(),
        long_notes(),
        labels(),
        brackets(),
        closed_brackets(),
    ]
    .into_iter()
    .flatten()
    .collect()
}

fn short_notes() -> Vec<Case> {
    vec![
        Case::of("empty note, nothing lent", "").rows(0, 0),
        Case::of("empty note, rows lent", "").rows(2, 2),
        Case::of("no rows, nothing lent", "plain text\n").rows(0, 0),
        Case::of("no rows, parts of a row lent", "plain text\n")
            .tables(DEFINITION_ROW_WIDTH - 1, SPAN_ROW_WIDTH - 1),
        Case::of("a line end alone", "\n").rows(1, 1),
        Case::of("blank lines alone", " \n\t\n \t \n\n").rows(1, 1),
        Case::of("a definition alone", "[a]: b").rows(1, 0),
        Case::of(
            "definitions alone, in two blocks",
            "[a]: b\n[c]: d\n\n[e]: f\n",
        )
        .rows(3, 0),
    ]
}

fn long_notes() -> Vec<Case> {
    let full = "a".repeat(LONGEST_NOTE);
    let link_last = "a".repeat(LONGEST_NOTE - 6) + "[b](c)";
    let definition_last = "a ".repeat(16_378) + "\n\n[b]: /cdef";
    let definitions = "[a]:b\n".repeat(5_461) + "\n\n";
    let bad_first = [b"\0", full.as_bytes()].concat();
    // In characters this one would be within the limit.
    let wide = "é".repeat(LONGEST_NOTE / 2) + "a";
    let row_and_part = |case: Case| case.tables(DEFINITION_ROW_WIDTH + 1, SPAN_ROW_WIDTH + 1);
    vec![
        row_and_part(Case::of("32,768 bytes", &full)),
        Case::of("32,768 bytes, a link at the end", link_last).rows(0, 1),
        Case::of("32,768 bytes, a definition at the end", definition_last).rows(1, 0),
        row_and_part(Case::of("32,769 bytes", full.clone() + "a")),
        row_and_part(Case::of("32,769 bytes, a bad byte first", bad_first)),
        row_and_part(Case::of("32,769 bytes of two to a character", wide)),
        Case::of("40,000 bytes", "a".repeat(40_000)).rows(0, 0),
        Case::of(
            "32,768 bytes of definitions: 5,461 rows needed",
            definitions,
        )
        .tables(DEFINITION_ROOM, SPAN_ROW_WIDTH),
    ]
}

fn labels() -> Vec<Case> {
    let characters = [
        ("one byte", "a"),
        ("two bytes", "é"),
        ("three bytes", "€"),
        ("four bytes", "😀"),
    ];
    let mut cases = Vec::new();
    for (bytes, character) in characters {
        for count in [999, 1_000] {
            let label = character.repeat(count);
            let note = format!("[{label}]: /u\n\n[{label}] [{label}][] [t][{label}]");
            let name = format!("label of {count} characters of {bytes}");
            cases.push(Case::of(name, note));
        }
    }
    for count in [999, 1_000] {
        let spaces = " ".repeat(count - 2);
        let letters = "a".repeat(count - 2);
        let spaced = format!("[a{spaces}b]: /u\n\n[a b]");
        let text = format!("[a b]: /u\n\n[a{spaces}b] [t][a{spaces}b]");
        let escape = format!("[{letters}\\]]: /u\n\n[{letters}\\]]");
        cases.extend([
            Case::of(format!("label of {count} characters, with spaces"), spaced),
            Case::of(format!("text of {count} characters, equal label"), text),
            Case::of(
                format!("label of {count} characters, an escape last"),
                escape,
            ),
        ]);
    }
    cases
}

/// Cases of brackets that stay open.
fn brackets() -> Vec<Case> {
    let open = |count: usize| "[".repeat(count);
    let second = format!("one [a](b)\n\n{}", open(1_025));
    let both = format!("{}\n\n{}", open(1_024), open(1_024));
    let two_deep = format!("a\n\n{}\n\nb\n\n{}", open(1_025), open(1_027));
    [
        ("1,024 opening brackets", open(1_024)),
        ("1,025 opening brackets", open(1_025)),
        ("1,026 opening brackets", open(1_026)),
        ("1,025 opening brackets in the second paragraph", second),
        ("1,024 opening brackets in each of two paragraphs", both),
        ("two paragraphs too deep", two_deep),
        (
            "1,025 opening brackets after letters of two bytes",
            format!("éé\n\nüü {}", open(1_025)),
        ),
        ("1,100 escaped brackets", "\\[".repeat(1_100)),
        (
            "1,100 brackets in a code span",
            format!("`{}`", open(1_100)),
        ),
        (
            "1,100 brackets in a tail",
            format!("[a](<{}>)", open(1_100)),
        ),
        (
            "brackets that close nothing, then 1,025",
            "]".repeat(9) + &open(1_025),
        ),
    ]
    .map(|(name, note)| Case::of(name, note).rows(0, 2))
    .into()
}

/// Cases of brackets that are paired by then.
fn closed_brackets() -> Vec<Case> {
    let open = |count: usize| "[".repeat(count);
    let close = |count: usize| "]".repeat(count);
    let links = "[a](b)".to_string() + &"](c)".repeat(1_023);
    let mut cases: Vec<Case> = [
        ("1,024 open, one closed, one opened", open(1_024) + "]["),
        ("1,024 open, one closed, two opened", open(1_024) + "][["),
        (
            "1,024 open, all closed, 1,024 opened",
            open(1_024) + &close(1_024) + &open(1_024),
        ),
        (
            "1,024 pairs, the inmost a link",
            open(1_024) + "a](b)" + &close(1_023),
        ),
        (
            "1,025 pairs, the inmost a link",
            open(1_025) + "a](b)" + &close(1_024),
        ),
        ("a link in a link 1,024 deep", open(1_023) + &links),
        (
            "1,024 open before a tail of brackets",
            open(1_024) + "](<" + &open(9) + ">)",
        ),
        (
            "600 open, a link, 600 opened",
            open(600) + "[a](b)" + &open(600),
        ),
        (
            "70 pairs, the inmost a link",
            open(70) + "a](b)" + &close(69),
        ),
        ("1,100 pairs, one after the other", "[]".repeat(1_100)),
    ]
    .map(|(name, note)| Case::of(name, note).rows(0, 2))
    .into();
    cases.push(
        Case::of("70 links", "[a](b)".repeat(70))
            .rows(0, 70)
            .page(2_000),
    );
    cases
}
