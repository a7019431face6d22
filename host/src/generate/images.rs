//! Notes of images and links inside each other and beside each other, by chance.

use super::chance::Chance;
use crate::second::MOST_BRACKETS_OPEN;

/// Definitions that half of the notes start with.
const DEFINITIONS: &str = "[a]: /1 \"t\"\n[b]: <2>\n\n";

/// What opens an image or a link, or looks like it.
const OPENINGS: &[&str] = &[
    "![", "![", "![", "[", "[", "![![", "[![", "![[", "!![", "\\![", "!\\[", "! [",
];
/// What closes one, with a tail or without.
const CLOSINGS: &[&str] = &[
    "](b)",
    "](b)",
    "](c 't')",
    "](<d e> \"\")",
    "]()",
    "][a]",
    "][]",
    "][z]",
    "]",
    "]",
    "](f",
    "]\n",
];
const BETWEEN: &[&str] = &[
    "a", "a", "b", "x y", "é", "`c`", "` d `", "`!`", "`e\n[`", "`", "\\]", "\\&", "\\", "&", "<",
    "\"", "\n", "!", "(", "]: ",
];
/// What one opening bracket is, near the limit.
const DEEP: &[&str] = &["[", "[", "![", "![", "![", "!![", "\\!["];

/// A note by chance.
pub fn note(chance: &mut Chance) -> Vec<u8> {
    let mut note = start(chance);
    for _ in 0..chance.between(1, 3) {
        note += &paragraph(chance);
        note += ["\n\n", "\n", " "][chance.below(3)];
    }
    note.into_bytes()
}

fn start(chance: &mut Chance) -> String {
    let start = if chance.once_in(2) { DEFINITIONS } else { "" };
    start.to_string()
}

/// Openings, closings and what stands between them; most are closed at the end.
fn paragraph(chance: &mut Chance) -> String {
    let mut text = String::new();
    let mut open = 0;
    for _ in 0..chance.between(3, 20) {
        match chance.below(4) {
            0 | 1 if open < 4 => {
                text += chance.one_of(OPENINGS);
                open += 1;
            }
            2 if open > 0 => {
                text += chance.one_of(CLOSINGS);
                open -= 1;
            }
            _ => text += chance.one_of(BETWEEN),
        }
    }
    for _ in 0..open {
        text += chance.one_of(CLOSINGS);
    }
    text
}

/// A note with brackets of both sorts nested by chance, as many as may be open or nearly so, or fewer.
pub fn deep(chance: &mut Chance) -> Vec<u8> {
    let most = MOST_BRACKETS_OPEN;
    let count = match chance.below(3) {
        0 => chance.between(most - 3, most + 3),
        1 => chance.between(200, most),
        _ => chance.between(2, 60),
    };
    let mut note = start(chance);
    (0..count).for_each(|_| note += chance.one_of(DEEP));
    note += chance.one_of(BETWEEN);
    let closed = count - chance.below(count / 2);
    (0..closed).for_each(|_| note += chance.one_of(CLOSINGS));
    note.into_bytes()
}
