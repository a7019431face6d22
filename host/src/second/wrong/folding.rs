//! Misreadings of folding: what a character folds to, where in a label, and of bytes that are no character.

use std::borrow::Cow;

use super::super::folding::{each_character, fold, folded};
use super::super::text::is_space;
use super::{Reader, Spot, Written, Wrong};

/// Characters past the rows, and what the whole file folds them to.
pub(super) const LATER: [(char, &str); 7] = [
    ('\u{531}', "\u{561}"),
    ('\u{1c80}', "\u{432}"),
    ('\u{1e9e}', "ss"),
    ('\u{2126}', "\u{3c9}"),
    ('\u{212a}', "k"),
    ('\u{212b}', "\u{e5}"),
    ('\u{10400}', "\u{10428}"),
];

impl Reader {
    /// What a wrong reading makes of a label by folding.
    pub(in super::super) fn misread_folded(self, label: &[u8]) -> Option<Vec<u8>> {
        let wrong = self.wrong?;
        if let Some(folded) = misread_ill_formed(wrong, label) {
            return Some(folded);
        }
        let text = std::str::from_utf8(label);
        match (wrong, text) {
            (Wrong::EscapesUndoneInLabels, Ok(text)) => {
                Some(folded(self.undo_escapes(text, Written::Text).as_bytes()))
            }
            (Wrong::TrimmedToo(other), Ok(text)) => {
                let ends = |character| is_space(character) || character == other;
                Some(folded(text.trim_matches(ends).as_bytes()))
            }
            (Wrong::Composed, Ok(text)) => Some(folded(text.replace("e\u{301}", "é").as_bytes())),
            (Wrong::SeveralCut(spot), Ok(text)) => Some(cut(text, spot).into_bytes()),
            _ => Some(each_character(label, |character| wrong.fold(character))),
        }
    }

    /// Text, code, a title or a destination as it is; a wrong reading folds it.
    pub(in super::super) fn misread_written(self, source: &str, written: Written) -> Cow<'_, str> {
        match self.wrong {
            Some(Wrong::FoldedOnPage(misread)) if misread == written => folded_text(source).into(),
            _ => source.into(),
        }
    }
}

/// A text with each character folded.
pub(super) fn folded_text(text: &str) -> String {
    let folded = |character| fold(character).map_or_else(|| String::from(character), String::from);
    text.chars().map(folded).collect()
}

impl Wrong {
    /// What a character folds to by a wrong reading; none where it stays.
    fn fold(self, character: char) -> Option<String> {
        let right = || fold(character).map(String::from);
        match self {
            Wrong::NotFolded => None,
            Wrong::OnlyAsciiFolded => right().filter(|_| character.is_ascii()),
            Wrong::LowerCased => Some(character.to_lowercase().collect()),
            Wrong::UpperCased => Some(character.to_uppercase().collect()),
            Wrong::SimplyFolded => right().filter(|folded| folded.chars().count() == 1),
            Wrong::TurkicFolded if character == 'I' => Some("ı".to_string()),
            Wrong::TurkicFolded if character == 'İ' => Some("i".to_string()),
            Wrong::UnicodeLabelSpace if character.is_whitespace() => Some(" ".to_string()),
            _ if self.misfolds() == Some(character) => self.fold_of(character),
            _ => right(),
        }
    }

    /// The one character that it folds otherwise.
    fn misfolds(self) -> Option<char> {
        match self {
            Wrong::FoldOf(own)
            | Wrong::EntryOff(own)
            | Wrong::FirstOfSeveral(own)
            | Wrong::LastOfSeveral(own)
            | Wrong::ZeroOfSeveral(own)
            | Wrong::LaterFolded(own)
            | Wrong::LabelSpaceToo(own) => Some(own),
            _ => None,
        }
    }

    /// What that character folds to.
    fn fold_of(self, own: char) -> Option<String> {
        let right = || folded_text(own.encode_utf8(&mut [0; 4]));
        match self {
            Wrong::FoldOf(_) if fold(own).is_some() => None,
            Wrong::FoldOf(_) => Some(folded_text(&next(own, 32).to_string())),
            Wrong::EntryOff(_) => {
                let mut off = right();
                let last = off.pop();
                off.extend(last.map(|last| next(last, 1)));
                Some(off)
            }
            Wrong::FirstOfSeveral(_) => Some(right().chars().take(1).collect()),
            Wrong::LastOfSeveral(_) => Some(right().chars().last().into_iter().collect()),
            Wrong::ZeroOfSeveral(_) => Some("\0".to_string()),
            Wrong::LaterFolded(_) => {
                let row = LATER.iter().find(|(later, _)| *later == own);
                row.map(|(_, folded)| folded.to_string())
            }
            _ => Some(" ".to_string()),
        }
    }
}

/// The character so many later.
fn next(character: char, later: u32) -> char {
    char::from_u32(character as u32 + later).unwrap_or(character)
}

/// A label folded, but that of a character that folds to several only the first is left at the spot.
fn cut(label: &str, spot: Spot) -> String {
    let words: Vec<&str> = label
        .split(is_space)
        .filter(|word| !word.is_empty())
        .collect();
    let last = words.len().saturating_sub(1);
    let cut_word = |(index, word): (usize, &&str)| match spot {
        Spot::Start if index == 0 => cut_first(word),
        Spot::AfterSpace if index > 0 => cut_first(word),
        Spot::BeforeSpace if index < last => cut_last(word),
        Spot::End if index == last => cut_last(word),
        _ => folded_text(word),
    };
    let words: Vec<String> = words.iter().enumerate().map(cut_word).collect();
    words.join(" ")
}

/// A word folded, of its first character only the first of what it folds to.
fn cut_first(word: &str) -> String {
    let mut rest = word.chars();
    let first: String = rest.next().into_iter().collect();
    let cut: String = folded_text(&first).chars().take(1).collect();
    cut + &folded_text(rest.as_str())
}

/// The same of its last character.
fn cut_last(word: &str) -> String {
    let mut rest = word.chars();
    let last: String = rest.next_back().into_iter().collect();
    let cut = folded_text(&last).chars().take(1).collect::<String>();
    folded_text(rest.as_str()) + &cut
}

/// What a wrong reading of bytes that are no character makes of a label.
fn misread_ill_formed(wrong: Wrong, label: &[u8]) -> Option<Vec<u8>> {
    let each = |ill_formed: fn(&[u8]) -> Vec<u8>| {
        let chunks = label.utf8_chunks();
        let written = |good: &str, bad: &[u8]| [folded(good.as_bytes()), ill_formed(bad)].concat();
        chunks
            .flat_map(|chunk| written(chunk.valid(), chunk.invalid()))
            .collect()
    };
    match wrong {
        Wrong::StrayDropped => Some(each(|_| Vec::new())),
        Wrong::StrayReplaced => Some(folded(String::from_utf8_lossy(label).as_bytes())),
        Wrong::StrayAsLatin => Some(each(|bytes| bytes.iter().flat_map(as_latin).collect())),
        Wrong::StrayJoined => Some(joined(label)),
        Wrong::StrayEndsFolding => {
            let good = label.utf8_chunks().next().map_or("", |chunk| chunk.valid());
            Some([&folded(good.as_bytes()), &label[good.len()..]].concat())
        }
        Wrong::OverlongFolded => Some(folded(&shortened(label))),
        _ => None,
    }
}

/// A byte as the character with its number is folded, where that is bytes again.
fn as_latin(byte: &u8) -> Vec<u8> {
    let folded = fold(char::from(*byte)).unwrap_or_default();
    let bytes: Result<Vec<u8>, _> = folded.chars().map(u8::try_from).collect();
    bytes
        .ok()
        .filter(|bytes| !bytes.is_empty())
        .unwrap_or_else(|| vec![*byte])
}

/// The label folded, where a byte that starts a character takes the next ones with it, whatever they are.
fn joined(label: &[u8]) -> Vec<u8> {
    let mut written = Vec::new();
    let mut rest = label;
    while let Some(first) = rest.first() {
        let length = match first {
            0xc2..=0xdf => 2,
            0xe0..=0xef => 3,
            0xf0..=0xf4 => 4,
            _ => 1,
        };
        let (character, after) = rest.split_at(length.min(rest.len()));
        match std::str::from_utf8(character) {
            Ok(good) => written.extend(folded_text(good).bytes()),
            Err(_) => written.extend(character),
        }
        rest = after;
    }
    written
}

/// The label with ASCII characters that are written in two bytes in one.
fn shortened(label: &[u8]) -> Vec<u8> {
    let mut written: Vec<u8> = Vec::new();
    for byte in label {
        match (written.last(), byte) {
            (Some(lead @ 0xc0..=0xc1), 0x80..=0xbf) => {
                let character = (lead & 1) << 6 | (byte & 0x3f);
                written.pop();
                written.push(character);
            }
            _ => written.push(*byte),
        }
    }
    written
}
