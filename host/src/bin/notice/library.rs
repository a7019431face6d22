//! The entries of the proved library, lent as much memory as the note and the sheet need.
//!
//! Refusals 3, 5 and 6 return what is needed, so the first question lends nothing and each later
//! one what the answer before it asked for.

use std::ops::Range;

use host::entries;

use crate::fault::Fault;
use crate::rows::{DEFINITION_WIDTH, SPAN_WIDTH};
use crate::texts::{Texts, Which};

const SUCCESS: u32 = 0;
const FEW_DEFINITION_ROWS: u32 = 3;
const FEW_SPAN_ROWS: u32 = 5;
const PAGE_TOO_SHORT: u32 = 6;

/// A refusal that more memory doesn't help.
#[derive(Clone, Copy, Debug, PartialEq, Eq)]
pub struct Refusal {
    pub number: u32,
    pub value: u64,
    /// The number of the text that it is about.
    pub text: u64,
}

/// Why there is no answer.
#[derive(Debug)]
pub enum Failure {
    Refused {
        refusal: Refusal,
        /// The definition table as the call left it: after refusal 9 it holds its rows.
        definitions: Vec<u32>,
    },
    Fault(Fault),
}

/// The two tables, no longer than their rows.
#[derive(Default)]
pub struct Tables {
    pub definitions: Vec<u32>,
    pub spans: Vec<u32>,
}

impl Tables {
    /// Makes room for the rows that a refusal asks for, or hands the refusal on.
    fn make_room(&mut self, refusal: Refusal) -> Result<(), Failure> {
        match refusal.number {
            FEW_DEFINITION_ROWS => grow(&mut self.definitions, refusal.value, DEFINITION_WIDTH),
            FEW_SPAN_ROWS => grow(&mut self.spans, refusal.value, SPAN_WIDTH),
            _ => Err(Failure::Refused {
                refusal,
                definitions: std::mem::take(&mut self.definitions),
            }),
        }
    }
}

/// The definition rows of both texts and the note's span rows; for a release only where no definitions
/// conflict.
pub fn read(texts: &Texts, release: bool) -> Result<Tables, Failure> {
    let mut tables = Tables::default();
    loop {
        let Tables { definitions, spans } = &mut tables;
        let answer = entries::read(&texts.note, &texts.sheet, release, definitions, spans);
        if answer.number == SUCCESS {
            return Ok(tables);
        }
        tables.make_room(Refusal {
            number: answer.number,
            value: answer.value,
            text: answer.text,
        })?;
    }
}

/// The note's page; for a release only where no definitions conflict.
pub fn page(texts: &Texts, release: bool) -> Result<Vec<u8>, Failure> {
    let mut tables = Tables::default();
    let mut page = Vec::new();
    loop {
        let (note, sheet) = (&texts.note, &texts.sheet);
        let Tables { definitions, spans } = &mut tables;
        let answer = entries::render(note, sheet, release, definitions, spans, &mut page);
        match answer.number {
            SUCCESS => return Ok(page),
            PAGE_TOO_SHORT => grow(&mut page, answer.value, 1)?,
            number => tables.make_room(Refusal {
                number,
                value: answer.value,
                text: answer.text,
            })?,
        }
    }
}

/// In which text, and where in it, the destination stands that a label opens.
pub fn resolve(texts: &Texts, label: &[u8]) -> Result<(Which, Range<usize>), Failure> {
    let answer = entries::resolve(&texts.note, &texts.sheet, label);
    if answer.number != SUCCESS {
        return Err(Failure::Refused {
            refusal: Refusal {
                number: answer.number,
                value: answer.value,
                text: answer.text,
            },
            definitions: Vec::new(),
        });
    }
    let which = Which::of(answer.text).ok_or_else(|| fault("a destination in no text"))?;
    let length = texts.bytes(which).len();
    match (usize::try_from(answer.start), usize::try_from(answer.end)) {
        (Ok(start), Ok(end)) if start <= end && end <= length => Ok((which, start..end)),
        _ => Err(fault("a destination outside its text")),
    }
}

/// Whether two labels are equal.
pub fn same_label(a: &[u8], b: &[u8]) -> Result<bool, Failure> {
    match entries::same_label(a, b) {
        1 => Ok(true),
        0 => Ok(false),
        _ => Err(fault("neither yes nor no for two labels")),
    }
}

/// Makes the buffer exactly as long as is needed. A need that is met already is the library's fault.
fn grow<T: Clone + Default>(buffer: &mut Vec<T>, rows: u64, width: usize) -> Result<(), Failure> {
    let memory = || Failure::Fault(Fault::Memory);
    let length = usize::try_from(rows)
        .ok()
        .and_then(|rows| rows.checked_mul(width))
        .ok_or_else(memory)?;
    if length <= buffer.len() {
        return Err(fault("asked for more memory than it needs"));
    }
    buffer
        .try_reserve_exact(length - buffer.len())
        .map_err(|_| memory())?;
    buffer.resize(length, T::default());
    Ok(())
}

/// An answer that the library's promise excludes.
pub fn fault(words: &'static str) -> Failure {
    Failure::Fault(Fault::Library(words))
}

#[cfg(test)]
mod tests {
    use super::{grow, page, read, resolve, same_label, Failure, Refusal};
    use crate::fault::Fault;
    use crate::rows::{DEFINITION_WIDTH, SPAN_WIDTH};
    use crate::texts::{Texts, Which};

    const NOTE: &str = "[max]: /q2/max \"June\"\n\nUse [max].\n";
    const SHEET: &str = "[MAX]: /s/max\n[min]: /s/min\n";

    #[test]
    fn buffers_are_exactly_as_long_as_needed() {
        let alone = Texts::of(NOTE, None);
        let tables = read(&alone, false).expect("a good note");
        assert_eq!(tables.definitions, [0, 1, 4, 7, 14, 16, 20, 1]);
        assert_eq!(tables.spans, [5, 27, 32, 28, 31, 1, 7, 14, 16, 20, 3]);
        let html = page(&alone, false).expect("a good note");
        assert_eq!(
            String::from_utf8_lossy(&html),
            "<p>Use <a href=\"/q2/max\" title=\"June\">max</a>.</p>\n"
        );
        let tables = read(&Texts::of("", None), false).expect("an empty note");
        assert!(tables.definitions.is_empty() && tables.spans.is_empty());
    }

    #[test]
    fn rows_of_both_texts_are_asked_for() {
        let both = Texts::of(NOTE, Some(SHEET));
        let tables = read(&both, false).expect("a good note and sheet");
        let rows = [
            [0, 1, 4, 7, 14, 16, 20, 1],
            [1, 1, 4, 7, 13, 0, 0, 1],
            [1, 15, 18, 21, 27, 0, 0, 2],
        ];
        assert_eq!(tables.definitions, rows.concat());
        assert_eq!(tables.spans, [5, 27, 32, 28, 31, 1, 7, 14, 16, 20, 3]);
    }

    #[test]
    fn a_conflict_stops_a_release_with_its_rows() {
        let both = Texts::of(NOTE, Some(SHEET));
        let rows = read(&both, false)
            .expect("definitions that differ")
            .definitions;
        let failures = [read(&both, true).err(), page(&both, true).err()];
        for failure in failures {
            let Some(Failure::Refused {
                refusal,
                definitions,
            }) = failure
            else {
                panic!("no refusal: {failure:?}");
            };
            let conflict = Refusal {
                number: 9,
                value: 2,
                text: 0,
            };
            assert_eq!((refusal, definitions), (conflict, rows.clone()));
        }
        let alone = Texts::of(NOTE, None);
        let [released, plain] = [true, false].map(|release| page(&alone, release));
        assert_eq!(released.expect("no conflict"), plain.expect("a good note"));
    }

    #[test]
    fn the_enquiry_hands_back_a_part_of_one_text() {
        let both = Texts::of(NOTE, Some(SHEET));
        let found = |label| resolve(&both, label).ok();
        assert_eq!(found(b" MAX "), Some((Which::Note, 7..14)));
        assert_eq!(found(b"Min"), Some((Which::Sheet, 21..27)));
        assert!(matches!(
            resolve(&both, b"mean"),
            Err(Failure::Refused { refusal, .. }) if refusal.number == 7
        ));
    }

    #[test]
    fn labels_are_equal_or_not() {
        assert_eq!(same_label(b"max rate", b" MAX\nrate").ok(), Some(true));
        assert_eq!(same_label(b"max rate", b"maxrate").ok(), Some(false));
    }

    #[test]
    fn needs_that_can_not_be_met() {
        for (rows, width) in [(u64::MAX, 1), (u64::MAX, SPAN_WIDTH), (u64::MAX / 4, 1)] {
            let failure = grow(&mut Vec::<u32>::new(), rows, width);
            assert!(matches!(failure, Err(Failure::Fault(Fault::Memory))));
        }
        let lent = &mut vec![0_u32; 2 * DEFINITION_WIDTH];
        let failure = grow(lent, 2, DEFINITION_WIDTH);
        assert!(matches!(failure, Err(Failure::Fault(Fault::Library(_)))));
    }
}
