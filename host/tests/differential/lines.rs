//! Lines: spans and definitions over several lines, in several paragraphs, and brackets that are open while
//! lines go by.

use crate::compare::{Lending, Texts};
use crate::named::{compare_at_every_size, compare_long_note, compare_with};
use crate::random::every_note;
use crate::trial::Need;
use host::second::{DEFINITION_ROW_WIDTH, LONGEST_NOTE, MOST_BRACKETS_OPEN, SPAN_ROW_WIDTH};

/// Links with code spans in their texts, references, code, images, brackets that stay open or close nothing.
const PARAGRAPHS: [&str; 5] = [
    "x [\n[a\n`b\nc` d](e\n't\nu') [\nl\n]\n`f` [g][l\n]\n",
    "``\n`` [a\n[`b`\n](c)\n] `d\n` ]\n[e](\n)\n",
    "[[l][]\n[\n[l\n](\nf\n)\n[l\n][]]](g)\n",
    "\\\n[a\\\n](\\\n) `b\\\n`\n[l]\n",
    "![a\n![b\n`c\n`](d\n)\n](e 'f\n') [![\nl\n]][l\n]\n!\n![\n[g](h)\n",
];
const DEFINITIONS: [&str; 3] = ["", "[l\n]:\n<m>\n(n\no)\n[L]: p\n", "[\nl]: q\n\n[r]:\ns\n"];
const BLANK_LINES: [&str; 4] = ["\n", "\n\n", " \n\t\n", "\n \t \n\n"];

/// Each definition and paragraph after some blank lines.
fn notes() -> Vec<String> {
    let mut notes = Vec::new();
    for definitions in DEFINITIONS {
        for blank in BLANK_LINES {
            let paragraphs = PARAGRAPHS.map(|paragraph| format!("{blank}{paragraph}"));
            notes.push(format!("{definitions}{}", paragraphs.concat()));
            notes.extend(paragraphs.map(|paragraph| {
                format!("{definitions}{paragraph}{blank}{definitions}{paragraph}")
            }));
        }
    }
    notes
}

#[test]
fn over_several_paragraphs() {
    let notes = notes();
    assert_eq!(notes.len(), 72);
    for note in notes {
        compare_at_every_size(Texts::alone(note.as_bytes()));
    }
}

/// Definition tables with room for each number of rows, from none to one more than needed, and all else as
/// needed.
pub fn definition_tables(need: &Need) -> impl Iterator<Item = Lending> {
    let exactly = need.exactly();
    (0..need.definitions.len() + 2).map(move |rows| Lending {
        definition_numbers: rows * DEFINITION_ROW_WIDTH,
        ..exactly
    })
}

#[test]
fn every_number_of_rows() {
    for note in notes() {
        let texts = Texts::alone(note.as_bytes());
        let need = Need::of(texts);
        let exactly = need.exactly();
        let definitions = definition_tables(&need);
        let spans = (0..need.spans.len() + 2).map(|rows| Lending {
            span_numbers: rows * SPAN_ROW_WIDTH,
            ..exactly
        });
        let tables: Vec<Lending> = definitions.chain(spans).collect();
        let came_up = compare_with(texts, false, &tables);
        assert_eq!(came_up[3], need.definitions.len());
        assert_eq!(came_up[5], need.spans.len());
        assert_eq!(came_up[0], 4);
    }
}

#[test]
fn every_short_note() {
    every_note(b"[a]: b\n\n", b"[]a`\n", 6);
    every_note(b"[a]: b\n\n", b"![]a\n", 6);
    every_note(b"", b"[]:a\n", 6);
    every_note(b"[a](", b"b'\n)", 6);
}

#[test]
fn brackets_over_lines() {
    brackets_to_a_line("[\n");
}

#[test]
fn image_openings_over_lines() {
    brackets_to_a_line("![\n");
}

/// An opening bracket to a line, closed on one line or on as many; the inmost, a middle or the outmost pair has a
/// tail.
fn brackets_to_a_line(line: &str) {
    let most = MOST_BRACKETS_OPEN;
    for count in [1, 2, 3, 31, 32, 33, 255, 256, 257, most - 1, most, most + 1] {
        let open = line.repeat(count);
        for (inner, outer) in [
            (0, count - 1),
            (count / 2, count - 1 - count / 2),
            (count - 1, 0),
        ] {
            for close in ["]", "]\n"] {
                let [inner, outer] = [inner, outer].map(|count| close.repeat(count));
                let note = format!("{open}{inner}](a){outer}\n[b](c) [\n[d\n](e)");
                compare_long_note(note.as_bytes());
            }
        }
    }
}

#[test]
fn many_lines() {
    for lines in [
        126, 127, 128, 254, 255, 256, 257, 4_095, 4_096, 16_384, 32_700,
    ] {
        for piece in [
            "\n", "\n\n", " \n", "a\n", "`\n`\n", "[a\n", "![a\n", "[a]: b\n",
        ] {
            let pieces = lines.min((LONGEST_NOTE - 60) / piece.len());
            let end = "[c\n`d`](e) `f`\n\n[g\n]:\nh\n\n[g] ![\ng]";
            compare_long_note(format!("{}{end}", piece.repeat(pieces)).as_bytes());
        }
    }
}
