//! Refusal 9 in words: where the two definitions stand, and what each says.

use std::borrow::Cow;

use crate::definitions::{Definitions, Difference};
use crate::files;
use crate::places::Place;
use crate::rows::DefinitionRow;
use crate::texts::{Texts, Which};
use crate::visible;

/// Where the definition stands whose number is returned, and the words that name it and the first one
/// of equal label that differs from it. None where there are no such two.
pub fn words(number: u64, table: &[u32], texts: &Texts) -> Option<(Which, Place, String)> {
    let definitions = Definitions::of(texts, table).ok()?;
    let here = usize::try_from(number).ok()?.checked_sub(1)?;
    let which = definitions.rows.get(here)?.which;
    let differs = |earlier| {
        let Difference { destination, title } = definitions.difference(earlier, here);
        destination || title
    };
    let there = definitions.first_equal(here, differs).ok()??;
    let label = visible::visible(&text(definitions.label(here)));
    let [says_here, says_there] = said(&definitions, here, there);
    let at = line(&definitions.rows[there], which, texts)?;
    let words = format!("\"[{label}]\" opens {says_here} and {says_there} at {at}; keep one");
    Some((which, definitions.place(here), words))
}

/// What the two say: their destinations, or where these are the same their titles.
fn said(definitions: &Definitions, here: usize, there: usize) -> [String; 2] {
    let destination = |index| visible::destination(&text(definitions.destination(index)));
    let title = |index| titled(definitions.title(index));
    if definitions.difference(here, there).destination {
        [format!("{} here", destination(here)), destination(there)]
    } else {
        let opened = destination(here);
        [format!("{opened} here {}", title(here)), title(there)]
    }
}

fn titled(title: Option<&[u8]>) -> String {
    match title {
        None => "with no title".to_string(),
        Some([]) => "with an empty title".to_string(),
        Some(title) => format!("with the title {}", visible::title(&text(title))),
    }
}

/// The line of the earlier one, and its file where that is another than the later one's.
fn line(earlier: &DefinitionRow, later: Which, texts: &Texts) -> Option<String> {
    let line = format!("line {}", earlier.line);
    if earlier.which == later {
        return Some(line);
    }
    let name = files::shown_name(texts.files.name(earlier.which)?);
    Some(format!("{line} of {name}"))
}

fn text(bytes: &[u8]) -> Cow<'_, str> {
    String::from_utf8_lossy(bytes)
}

#[cfg(test)]
mod tests {
    use super::words;
    use crate::places::Place;
    use crate::texts::{Texts, Which};

    const NOTE: &str = "[a]: x\n[A]: y\n";
    const SHEET: &str = "[b]: z\n [a]: x\n";
    const ROWS: [[u32; 8]; 4] = [
        [0, 1, 2, 5, 6, 0, 0, 1],
        [0, 8, 9, 12, 13, 0, 0, 2],
        [1, 1, 2, 5, 6, 0, 0, 1],
        [1, 9, 10, 13, 14, 0, 0, 2],
    ];

    fn said(number: u64, rows: &[[u32; 8]]) -> Option<(Which, Place, String)> {
        words(number, &rows.concat(), &Texts::of(NOTE, Some(SHEET)))
    }

    #[test]
    fn the_first_of_equal_label_that_differs_is_named() {
        let at = |line, column| Place { line, column };
        let wanted = "\"[A]\" opens y here and x at line 1; keep one".to_string();
        assert_eq!(said(2, &ROWS), Some((Which::Note, at(2, 1), wanted)));
        let wanted = "\"[a]\" opens x here and y at line 2 of note; keep one".to_string();
        assert_eq!(said(4, &ROWS), Some((Which::Sheet, at(2, 2), wanted)));
    }

    /// The first definition, one without an equal label before it, a repeat, and numbers of none.
    #[test]
    fn numbers_of_no_conflict() {
        for number in [0, 1, 3, 5, u64::MAX] {
            assert_eq!(said(number, &ROWS), None, "{number}");
        }
        assert_eq!(said(2, &[ROWS[0], ROWS[3]]), None);
        assert_eq!(said(2, &ROWS[..1]), None);
        assert_eq!(said(1, &[]), None);
        assert_eq!(said(2, &[ROWS[0], [2, 8, 9, 12, 13, 0, 0, 2]]), None);
    }
}
