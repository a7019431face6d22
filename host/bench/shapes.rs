//! The texts that are tried: words, put together in a few ways up to the longest note or sheet.

use host::second::{LONGEST_NOTE, MOST_BRACKETS_OPEN};

/// A note and a sheet, one of them empty, and how the other is made.
pub struct Shape {
    pub name: String,
    pub note: Vec<u8>,
    pub sheet: Vec<u8>,
}

impl Shape {
    fn of_note(name: String, note: Vec<u8>) -> Shape {
        let sheet = Vec::new();
        Shape { name, note, sheet }
    }

    /// The same text as a sheet.
    pub fn in_sheet(self) -> Shape {
        Shape {
            name: format!("sheet of {}", self.name),
            note: self.sheet,
            sheet: self.note,
        }
    }
}

/// A word over and over.
pub fn repeated(word: &[u8]) -> Shape {
    let note = word.repeat(LONGEST_NOTE / word.len());
    Shape::of_note(show(word), note)
}

/// How many definitions stand in front of a word.
const DEFINITIONS: usize = 40;

/// A word over and over, after definitions whose labels are made of its bytes.
pub fn defined(word: &[u8]) -> Shape {
    let labels = (0..DEFINITIONS).map(|place| label_of(word, place));
    let definitions = labels.flat_map(|label| [b"[", label.as_slice(), b"]:c\n"].concat());
    let mut note: Vec<u8> = definitions.chain(*b"\n").collect();
    note.extend(word.repeat((LONGEST_NOTE - note.len()) / word.len()));
    Shape::of_note(format!("{} after definitions", show(word)), note)
}

/// A label: the bytes of the word that can stand in one, from each place on, and from the second round on with a number.
fn label_of(word: &[u8], place: usize) -> Vec<u8> {
    let turned = word.iter().cycle().skip(place % word.len());
    let bytes = turned.take(word.len());
    let bytes = bytes.filter(|byte| !b"[]\\\n".contains(byte));
    let mut label: Vec<u8> = bytes.copied().collect();
    if place >= word.len() || label.trim_ascii().is_empty() {
        label.extend(place.to_string().bytes());
    }
    label
}

/// A definition over and over, of which two words are parts.
pub fn definitions(label: &[u8], rest: &[u8]) -> Shape {
    repeated(&[b"[", label, b"]:", rest, b"\n"].concat())
}

/// A word as often as brackets may be open, each of its own one of them, a second one over so many bytes, a third
/// one as often as the first; and all of it over and over.
pub fn around(open: &[u8], middle: &[u8], bytes: usize, close: &[u8]) -> Shape {
    let opened = open.iter().filter(|byte| **byte == b'[').count();
    let deep = (MOST_BRACKETS_OPEN - 1) / opened.max(1);
    let room = LONGEST_NOTE - deep * (open.len() + close.len());
    let unit = [
        open.repeat(deep),
        middle.repeat(bytes.min(room) / middle.len()),
        close.repeat(deep),
    ]
    .concat();
    let name = format!(
        "{} around {bytes} of {}, {}",
        show(open),
        show(middle),
        show(close)
    );
    Shape::of_note(name, unit.repeat(LONGEST_NOTE / unit.len()))
}

/// Two words, each over half of the note.
pub fn halves(first: &[u8], second: &[u8]) -> Shape {
    let half = |word: &[u8]| word.repeat(LONGEST_NOTE / 2 / word.len());
    let name = format!("{}, then {}", show(first), show(second));
    Shape::of_note(name, [half(first), half(second)].concat())
}

/// A byte so many times, then once more than that, and so on, with a word after each run.
pub fn rising(byte: u8, least: usize, word: &[u8]) -> Shape {
    let mut note = Vec::with_capacity(LONGEST_NOTE);
    for count in least.. {
        if note.len() + count + word.len() > LONGEST_NOTE {
            break;
        }
        note.resize(note.len() + count, byte);
        note.extend_from_slice(word);
    }
    let name = format!("{} rising from {least}, with {}", show(&[byte]), show(word));
    Shape::of_note(name, note)
}

/// A word as the table shows it.
fn show(word: &[u8]) -> String {
    format!("`{}`", word.escape_ascii())
}
