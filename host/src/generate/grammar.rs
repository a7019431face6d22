//! Notes from a grammar: definitions, references to them, inline links, images, code spans, escapes, nested
//! brackets, blank lines; now and then with a byte spoilt.

use super::chance::Chance;
use super::spellings::respelled;
use crate::second::MOST_BRACKETS_OPEN;

const LABELS: &[&str] = &[
    "a",
    "b",
    "foo",
    "foo bar",
    "ref\\[",
    "\\]",
    "é",
    "a\\!",
    "x`y",
    "limit 1",
    "a b c",
    "Zz",
    "ß",
    "ss",
    "жгут",
    "Доза µ",
    "σας",
    "\u{130}",
    "\u{390}",
    "k",
    "\u{212a}",
    "\u{1e9e}",
];
const DESTINATIONS: &[&str] = &[
    "/u",
    "/q3/a.pdf",
    "<b c>",
    "<>",
    "a(b)c",
    "\\(x",
    "é",
    "b&c",
    "<a\\>b>",
    "%20",
    "\"q\"",
    "x\\y",
    "(((z)))",
    "a(b",
    "a)b",
    "<c",
    "",
    "#\\#",
    "<d\ne>",
];
const TITLES: &[&str] = &[
    "\"t\"",
    "'it\\'s'",
    "(p)",
    "\"a\nb\"",
    "\"\"",
    "''",
    "()",
    "'<&>'",
    "\"é\\\"\"",
    "(\\)(",
    "\"x",
    "'y",
    "(z",
];
const SPACES: &[&str] = &[" ", " ", " ", "\n", " \n ", "\t", "", "\n\n"];
const BLANK_LINES: &[&str] = &["\n", "\n", " \n", "\t\n", "\n\n", " \t \n\n"];
const WORDS: &[&str] = &[
    "a", "the pump", "é", "😀", "b\n", "x  y", "&", "<i>", "\"", "*e*", "\n", "\nc ", "d\ne\n",
];
const ESCAPES: &[&str] = &[
    "\\[", "\\]", "\\`", "\\\\", "\\!", "\\a", "\\&", "\\", "\\<", "\\![", "!\\[",
];
const STRAY: &[&str] = &[
    "[", "]", "(", ")", "`", "``", "!", ":", "[]", "](", "]:", "<", ">", "![", "!![",
];
/// What stands before a bracket that opens.
const BEFORE: &[&str] = &["", "", "", "", "!", "!", "!", "!!", "\\!", "! "];
const CODE: &[&str] = &[
    "c", " c ", " ", "  ", "\n", "`", "``", "]", "[a]", "<&>", "\\", "a\nb", "![a](b)",
];
const SPOILING: &[u8] = b"[]()<>`\\\"' \n\t:!aA&\x00\x0d\x80\xff";

/// A note by chance.
pub fn note(chance: &mut Chance) -> Vec<u8> {
    let mut note = String::new();
    for _ in 0..chance.between(1, 4) {
        let definitions_only = chance.once_in(3);
        if definitions_only || chance.once_in(3) {
            note += &definitions(chance);
        }
        if !definitions_only {
            note += &paragraph(chance);
            note += "\n";
        }
        note += chance.one_of(BLANK_LINES);
    }
    let mut bytes = note.into_bytes();
    if chance.once_in(4) {
        spoil(chance, &mut bytes);
    }
    bytes
}

/// Some definitions, mostly good ones.
fn definitions(chance: &mut Chance) -> String {
    let mut lines = String::new();
    for _ in 0..chance.between(1, 3) {
        let indent = " ".repeat(chance.below(5).saturating_sub(1));
        lines += &format!("{indent}[{}]:", label(chance));
        lines += chance.one_of(SPACES);
        lines += chance.one_of(DESTINATIONS);
        if chance.once_in(2) {
            lines += chance.one_of(SPACES);
            lines += chance.one_of(TITLES);
        }
        lines += ["", "", " ", "\t"][chance.below(4)];
        lines += "\n";
    }
    lines
}

/// A label of the list, in another spelling and space now and then.
pub fn label(chance: &mut Chance) -> String {
    let label = chance.one_of(LABELS);
    if chance.once_in(3) {
        varied(chance, label)
    } else {
        label.to_string()
    }
}

/// The text in another spelling that folds to the same, and with other space.
pub fn varied(chance: &mut Chance, text: &str) -> String {
    let mut other = String::new();
    for character in respelled(chance, text).chars() {
        match character {
            ' ' | '\t' | '\n' => other += ["  ", "\t", "\n", " \n "][chance.below(4)],
            same => other.push(same),
        }
    }
    match chance.below(6) {
        0 => format!(" {other}"),
        1 => format!("{other}\n"),
        _ => other,
    }
}

/// A paragraph; one in sixty has brackets near the limit before it, of one sort or of both.
fn paragraph(chance: &mut Chance) -> String {
    let mut text = String::new();
    if chance.once_in(60) {
        let count = chance.between(MOST_BRACKETS_OPEN - 2, MOST_BRACKETS_OPEN + 3);
        let images = chance.one_of(&[0, 0, 1, 512, count]);
        text += &"![".repeat(images);
        text += &"[".repeat(count - images);
    }
    let depth = chance.below(4);
    text + &content(chance, depth)
}

/// Pieces of a paragraph, with brackets nested so deep at most.
fn content(chance: &mut Chance, depth: usize) -> String {
    let mut text = String::new();
    for _ in 0..chance.between(1, 4) {
        text += &piece(chance, depth);
    }
    text
}

fn piece(chance: &mut Chance, depth: usize) -> String {
    match chance.below(if depth == 0 { 6 } else { 10 }) {
        0 => chance.one_of(WORDS).to_string(),
        1 => chance.one_of(ESCAPES).to_string(),
        2 => chance.one_of(STRAY).to_string(),
        3 => code_span(chance),
        bracketed => chance.one_of(BEFORE).to_string() + &pair(chance, depth, bracketed),
    }
}

/// A pair of brackets with a tail of one kind or none.
fn pair(chance: &mut Chance, depth: usize, kind: usize) -> String {
    match kind {
        4 => format!("[{}]", label(chance)),
        5 => format!("[{}][]", label(chance)),
        6 | 7 => format!("[{}]{}", content(chance, depth - 1), inline_tail(chance)),
        8 => format!("[{}][{}]", content(chance, depth - 1), label(chance)),
        _ => format!("[{}]", content(chance, depth - 1)),
    }
}

fn code_span(chance: &mut Chance) -> String {
    let backticks = "`".repeat(chance.between(1, 3));
    let closing = if chance.once_in(8) { "" } else { &backticks };
    format!("{backticks}{}{closing}", chance.one_of(CODE))
}

fn inline_tail(chance: &mut Chance) -> String {
    let mut tail = String::from("(");
    if chance.once_in(4) {
        tail += chance.one_of(SPACES);
    }
    tail += chance.one_of(DESTINATIONS);
    if chance.once_in(2) {
        tail += chance.one_of(SPACES);
        tail += chance.one_of(TITLES);
    }
    if chance.once_in(4) {
        tail += chance.one_of(SPACES);
    }
    tail + ")"
}

/// Takes out, puts in or changes up to three bytes.
fn spoil(chance: &mut Chance, note: &mut Vec<u8>) {
    for _ in 0..chance.between(1, 3) {
        if note.is_empty() {
            return;
        }
        let place = chance.below(note.len());
        let byte = chance.one_of(SPOILING);
        match chance.below(3) {
            0 => drop(note.remove(place)),
            1 => note.insert(place, byte),
            _ => note[place] = byte,
        }
    }
}
