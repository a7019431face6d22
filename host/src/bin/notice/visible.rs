//! Text for people: on one line, with nothing in it that can't be seen or that moves a terminal.

use std::fmt::Write;
use std::ops::RangeInclusive;

/// The text with its control characters as their pictures (LF as U+240A), spaces at its start and
/// end too (U+2420), and other characters that show nothing, look like a space or turn the reading
/// direction as `⟨U+NNNN⟩`.
pub fn visible(text: &str) -> String {
    let inner_start = text.len() - text.trim_start_matches(' ').len();
    let inner_end = text.trim_end_matches(' ').len();
    let mut shown = String::with_capacity(text.len());
    for (at, character) in text.char_indices() {
        match character {
            ' ' if at < inner_start || at >= inner_end => shown.push('\u{2420}'),
            _ => push(&mut shown, character),
        }
    }
    shown
}

/// Characters that show nothing, look like a space or turn the reading direction: C1 controls, spaces
/// but U+0020, format and filler characters, variation selectors and tags.
const UNSEEN: [RangeInclusive<char>; 20] = [
    '\u{80}'..='\u{a0}',
    '\u{ad}'..='\u{ad}',
    '\u{34f}'..='\u{34f}',
    '\u{61c}'..='\u{61c}',
    '\u{115f}'..='\u{1160}',
    '\u{1680}'..='\u{1680}',
    '\u{17b4}'..='\u{17b5}',
    '\u{180b}'..='\u{180f}',
    '\u{2000}'..='\u{200f}',
    '\u{2028}'..='\u{202f}',
    '\u{205f}'..='\u{206f}',
    '\u{2800}'..='\u{2800}',
    '\u{3000}'..='\u{3000}',
    '\u{3164}'..='\u{3164}',
    '\u{fe00}'..='\u{fe0f}',
    '\u{feff}'..='\u{feff}',
    '\u{ffa0}'..='\u{ffa0}',
    '\u{fff9}'..='\u{fffb}',
    '\u{1d173}'..='\u{1d17a}',
    '\u{e0000}'..='\u{e0fff}',
];

fn push(shown: &mut String, character: char) {
    match character {
        '\0'..='\u{1f}' => shown.extend(char::from_u32(0x2400 + u32::from(character))),
        '\u{7f}' => shown.push('\u{2421}'),
        _ if UNSEEN.iter().any(|range| range.contains(&character)) => {
            // Writing in a string never fails.
            let _ = write!(shown, "⟨U+{:04X}⟩", u32::from(character));
        }
        _ => shown.push(character),
    }
}

/// A destination as it stands, in angle brackets where it is empty or has a space: so it is never
/// taken for words that say that there is none.
pub fn destination(text: &str) -> String {
    if text.is_empty() || text.contains(' ') {
        format!("<{}>", visible(text))
    } else {
        visible(text)
    }
}

/// A title between quotation marks.
pub fn title(text: &str) -> String {
    format!("\"{}\"", visible(text))
}

#[cfg(test)]
mod tests {
    use super::{destination, visible};

    #[test]
    fn nothing_unseen_is_left() {
        assert_eq!(visible("a\nb\tc\u{1b}[2J\u{7f}"), "a␊b␉c␛[2J␡");
        assert_eq!(
            visible("5\u{a0}mg \u{202e}gm\u{9b}"),
            "5⟨U+00A0⟩mg ⟨U+202E⟩gm⟨U+009B⟩"
        );
        assert_eq!(visible("a\u{feff}\u{e0041}"), "a⟨U+FEFF⟩⟨U+E0041⟩");
        assert_eq!(visible("é µ 😀 \\*"), "é µ 😀 \\*");
    }

    #[test]
    fn spaces_at_the_start_and_the_end() {
        assert_eq!(visible("  a  b "), "␠␠a  b␠");
        assert_eq!(visible(" "), "␠");
        assert_eq!(visible(" \n "), "␠␊␠");
        assert_eq!(visible(""), "");
    }

    #[test]
    fn destinations_with_spaces_or_nothing() {
        assert_eq!(destination(""), "<>");
        assert_eq!(destination("my uri"), "<my uri>");
        assert_eq!(destination("/q2/max"), "/q2/max");
    }
}
