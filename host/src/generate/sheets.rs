//! Sheets by chance, each for a note that it is lent beside.

use super::alphabets::ALPHABETS;
use super::chance::Chance;
use super::grammar;
use crate::second::LONGEST_NOTE;

/// Bytes and sequences that no good text has.
const BAD: &[&[u8]] = &[
    b"\0",
    b"\r",
    b"\x80",
    b"\xc3",
    b"\xff",
    b"\xed\xa0\x80",
    b"\xf4\x90\x80\x80",
];

/// A note and a sheet by chance. The note's maker is given; now and then a text is near the longest.
pub fn beside(note: impl Fn(&mut Chance) -> Vec<u8>, chance: &mut Chance) -> (Vec<u8>, Vec<u8>) {
    let mut note = note(chance);
    let mut sheet = sheet(&note, chance);
    if chance.once_in(30) {
        let place = chance.below(sheet.len() + 1);
        sheet.splice(place..place, chance.one_of(BAD).iter().copied());
    }
    for text in [&mut note, &mut sheet] {
        if chance.once_in(2_000) {
            lengthen(text, chance);
        }
    }
    (note, sheet)
}

/// A sheet of one or two parts: definitions of what stands between brackets in the note, another note, the
/// note itself.
fn sheet(note: &[u8], chance: &mut Chance) -> Vec<u8> {
    let mut sheet = Vec::new();
    for _ in 0..chance.between(1, 2) {
        match chance.below(8) {
            0 => sheet.extend_from_slice(note),
            1 => sheet.extend(ALPHABETS[chance.below(ALPHABETS.len())].note(chance)),
            2 | 3 => sheet.extend(grammar::note(chance)),
            _ => sheet.extend(definitions_for(note, chance)),
        }
    }
    sheet
}

/// Definitions of some of the texts between brackets in the note, in other spellings and space, with a line of text
/// before or after them at times.
fn definitions_for(note: &[u8], chance: &mut Chance) -> Vec<u8> {
    let mut lines = Vec::new();
    if chance.once_in(4) {
        lines.extend_from_slice(b"Limits\n\n");
    }
    for (number, label) in bracketed(note).enumerate().take(6) {
        if chance.once_in(3) {
            continue;
        }
        let label = grammar::varied(chance, &String::from_utf8_lossy(label));
        let title = ["", "", " 's'", "\n\"t\nu\""][chance.below(4)];
        lines.extend(format!("[{label}]: /s{number}{title}\n").into_bytes());
    }
    if chance.once_in(4) {
        lines.extend_from_slice(b"after [them] `x`\n");
    }
    lines
}

/// What stands between a bracket and the next one.
fn bracketed(note: &[u8]) -> impl Iterator<Item = &[u8]> {
    let parts = note.split(|byte| *byte == b'[').skip(1);
    parts.filter_map(|part| {
        let end = part.iter().position(|byte| *byte == b']')?;
        (end > 0).then(|| &part[..end])
    })
}

/// Lines before the text, so that it has about as many bytes as the longest.
fn lengthen(text: &mut Vec<u8>, chance: &mut Chance) {
    let length = LONGEST_NOTE - 1 + chance.below(3);
    let more = length.saturating_sub(text.len());
    let line = chance.one_of(&[b"\n".as_slice(), b"text\n\n", b"[x]: y\n", b"aaaa "]);
    text.splice(0..0, line.iter().copied().cycle().take(more));
}
