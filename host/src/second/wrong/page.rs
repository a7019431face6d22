//! Misreadings of the content of code spans.

use super::{Reader, Wrong};

impl Reader {
    /// The content that a wrong reading gives a code span.
    pub(in super::super) fn misread_content(self, inside: &str) -> Option<String> {
        let wrong = self.wrong?;
        let spaced = inside.replace('\n', " ");
        let both = |content: &str, space: &[char]| {
            let rest = content.strip_prefix(space)?.strip_suffix(space)?;
            let all_spaces = content.trim_matches(' ').is_empty();
            (!all_spaces).then(|| rest.to_string())
        };
        match wrong {
            Wrong::LineFeedInCodeKept => Some(both(inside, &[' ', '\n']).unwrap_or(inside.into())),
            Wrong::CodeSpacesKept => Some(spaced),
            Wrong::CodeTrimmed => Some(spaced.trim_matches(' ').to_string()),
            Wrong::CodeSpaceAtOneEnd if spaced.trim_matches(' ').is_empty() => Some(spaced),
            Wrong::CodeSpaceAtOneEnd => {
                let rest = spaced.strip_prefix(' ').unwrap_or(&spaced);
                Some(rest.strip_suffix(' ').unwrap_or(rest).to_string())
            }
            Wrong::CodeAllSpacesDropped if spaced.len() > 1 => {
                let rest = spaced.strip_prefix(' ').and_then(|c| c.strip_suffix(' '));
                Some(rest.unwrap_or(&spaced).to_string())
            }
            Wrong::CodeJudgedFirst => {
                let judged = both(inside, &[' ']).unwrap_or(inside.into());
                Some(judged.replace('\n', " "))
            }
            Wrong::CodeTabDropped => Some(both(&spaced, &[' ', '\t']).unwrap_or(spaced)),
            _ => None,
        }
    }
}
