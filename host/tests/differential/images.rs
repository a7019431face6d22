//! Images: every short note over their marks, brackets of both sorts near the limit, and images that hold images,
//! links and code, at every size near the need.

use crate::compare::{self, Lending, Texts};
use crate::named::{compare_at_every_size, compare_long, compare_long_note, compare_with, must};
use crate::random::every_note;
use crate::trial::Need;
use host::second::{LONGEST_NOTE, SPAN_ROW_WIDTH};

#[test]
fn every_short_note_of_images() {
    every_note(b"", b"![]()a", 6);
    every_note(b"[a]: b\n\n", b"![]a\\", 6);
    every_note(b"[![", b"![](a)", 5);
    every_note(b"![a](b", b"!['\") \n", 4);
}

/// What an image may hold, beside each other and inside each other.
const HELD: [&str; 8] = [
    "a & \\<",
    "`b\n`",
    "[c](d 'e')",
    "![f](g \"h\")",
    "[l]",
    "![L][]",
    "[x]",
    "!\\[y\\]!",
];
/// What stands around it.
const AROUND: [[&str; 2]; 7] = [
    ["![", "](u)"],
    ["![", "](<v w> '\"')"],
    ["[", "](u)"],
    ["[![", "](u)](v)"],
    ["![[", "][l]][]"],
    ["\\![", "][l]"],
    ["!![i [j ![", "]()](k)](m)"],
];

/// Each in each, and each two in each.
fn notes() -> Vec<String> {
    let mut notes = Vec::new();
    for [before, after] in AROUND {
        for one in HELD {
            notes.push(format!("{before}{one}{after}"));
            let two = HELD.map(|other| format!("{before}{one}\n{other}{after} {one}{other}"));
            notes.push(format!("[l]: /l 'm'\n\n{}", two.join("\n\n")));
        }
    }
    notes
}

#[test]
fn what_images_hold_at_every_size() {
    let notes = notes();
    assert_eq!(notes.len(), 112);
    for note in notes {
        let texts = Texts::alone(note.as_bytes());
        if note.len() < 100 {
            compare_at_every_size(texts);
        }
        compare_long(texts);
        compare_long(Texts {
            note: note.as_bytes(),
            sheet: b"x\n\n[L]: /s.png 't'\n[x]: /y\n",
        });
    }
}

/// Span tables with room for each number of rows, and pages of each length up to the need.
#[test]
fn every_number_of_rows_and_bytes() {
    for note in notes().iter().filter(|note| note.len() < 60) {
        let texts = Texts::alone(note.as_bytes());
        let need = Need::of(texts);
        let exactly = need.exactly();
        let rows = (0..need.spans.len() + 2).map(|rows| Lending {
            span_numbers: rows * SPAN_ROW_WIDTH,
            ..exactly
        });
        let pages = (0..need.page + 2).map(|page_bytes| Lending {
            page_bytes,
            ..exactly
        });
        let lendings: Vec<Lending> = rows.chain(pages).collect();
        let came_up = compare_with(texts, false, &lendings);
        assert_eq!([came_up[5], came_up[6]], [need.spans.len(), need.page]);
    }
}

/// Brackets of both sorts near the limit, closed with tails and without.
#[test]
fn both_sorts_near_the_limit() {
    let sorts = ["![", "[![", "![[", "!![", "\\!["];
    let closings = ["]", "](b)", "](b)](c)", "][a]", "]]"];
    for n in [1, 2, 63, 511, 512, 513, 1_022, 1_023, 1_024, 1_025, 1_026] {
        for open in sorts.map(|sort| sort.repeat(n)) {
            for close in closings.map(|closing| closing.repeat(n)) {
                compare_long_note(format!("[a]: b\n\n{open}a{close}").as_bytes());
            }
            compare_long_note(format!("é\n\n{open}\n\n]{open}](c)![").as_bytes());
        }
    }
}

/// Openings that a paragraph leaves open, and closings of the next.
#[test]
fn images_of_each_paragraph_start_afresh() {
    for count in [1, 2, 500, 1_024] {
        let open = "![".repeat(count);
        let close = "](a)".repeat(count);
        for note in [
            format!("{open}\n\n{close}"),
            format!("{open}\n\n{open}b{close}\n\n{close}"),
            format!("![c\n\n](d)\n\n{open}[e](f){close}!\n\n[g](h)"),
        ] {
            compare_long_note(note.as_bytes());
        }
    }
}

#[test]
fn longest_images() {
    let text = |byte: &str, room: usize| byte.repeat(room / byte.len());
    for byte in [
        "a", "&", "\\&", "é", "\n", "[", "!", "`a`", "[](b)", "![](b)",
    ] {
        let room = LONGEST_NOTE - 8;
        // Brackets may not be open at once in such numbers.
        let room = if byte == "[" { 1_023 } else { room };
        let note = format!("![{}](b 'c')", text(byte, room - 4));
        let texts = Texts::alone(note.as_bytes());
        let exactly = compare_long(texts).exactly();
        let short_page = Lending {
            page_bytes: exactly.page_bytes.saturating_sub(1),
            ..exactly
        };
        must(texts, compare::render(texts, false, short_page));
    }
    for target in ["a", "&", "\\(", "%", "|"] {
        let note = format!("![a](<{}> \"t\")", text(target, LONGEST_NOTE - 12));
        compare_long_note(note.as_bytes());
        let note = format!("![a](b '{}')", text(target, LONGEST_NOTE - 10));
        compare_long_note(note.as_bytes());
    }
}

/// As many images as there is room for, of each kind.
#[test]
fn many_images() {
    for piece in [
        "![]()",
        "![a]",
        "![a][] ",
        "![b][a]",
        "[![a]][a]\n",
        "![a](b)\n\n",
    ] {
        let note = "[a]: /u 't'\n\n".to_string() + &piece.repeat((LONGEST_NOTE - 20) / piece.len());
        compare_long_note(note.as_bytes());
    }
}
