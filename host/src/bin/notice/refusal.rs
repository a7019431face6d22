//! Refusals in words: where, what was met, and what to do.

use crate::conflict;
use crate::fault::Fault;
use crate::files;
use crate::library::{Failure, Refusal};
use crate::places::Place;
use crate::texts::{Texts, Which};

/// "note longer than 32,768 bytes", and the sheet "under the same limits".
const LONGEST_TEXT: u64 = 32_768;
/// Refusal 4 is given where more are open at once.
const MOST_BRACKETS_OPEN: u64 = 1_024;
/// Where a refusal stands that has no place.
const NO_PLACE: Place = Place { line: 1, column: 1 };

/// The fault that a failure is, with the line that says it.
pub fn fault(failure: Failure, texts: &Texts) -> Fault {
    match failure {
        Failure::Fault(fault) => fault,
        Failure::Refused {
            refusal,
            definitions,
        } => said(refusal, &definitions, texts)
            .unwrap_or(Fault::Library("a refusal that it doesn't have")),
    }
}

/// The line that names the file, place and number of a refusal, if there is one like it.
fn said(refusal: Refusal, definitions: &[u32], texts: &Texts) -> Option<Fault> {
    let number = u8::try_from(refusal.number).ok()?;
    let (which, Place { line, column }, words) = words(refusal, definitions, texts)?;
    let name = files::shown_name(texts.files.name(which)?);
    Some(Fault::Refused {
        number,
        line: format!("{name}:{line}:{column}: refusal {number}: {words}"),
    })
}

/// The text and the place where a refusal stands, and its words. Only 1 and 2 are ever about the
/// sheet; 9 stands where the definition does.
fn words(refusal: Refusal, definitions: &[u32], texts: &Texts) -> Option<(Which, Place, String)> {
    let value = refusal.value;
    let which = Which::of(refusal.text)?;
    match (refusal.number, which) {
        (1, _) => Some((which, NO_PLACE, too_long(value, which))),
        (2, _) => {
            let (byte, place) = met(value, texts.bytes(which))?;
            Some((which, place, no_good_character(byte)))
        }
        (4, Which::Note) => {
            let (_, place) = met(value, &texts.note)?;
            Some((which, place, too_deep()))
        }
        (7, Which::Note) => Some((which, NO_PLACE, no_definition(texts))),
        (8, Which::Note) => Some((which, NO_PLACE, NO_LABEL.to_string())),
        (9, Which::Note) => conflict::words(value, definitions, texts),
        _ => None,
    }
}

/// The byte at the place that a refusal returns, and its line and column.
fn met(value: u64, text: &[u8]) -> Option<(u8, Place)> {
    let at = usize::try_from(value).ok()?;
    let byte = *text.get(at)?;
    Some((byte, Place::counted(text, at)))
}

fn too_long(length: u64, which: Which) -> String {
    let (text, advice) = match which {
        Which::Note => ("note", "split it into shorter notices"),
        Which::Sheet => ("sheet", "take out what no notice cites"),
    };
    format!("the {text} has {length} bytes and may have {LONGEST_TEXT}; {advice}")
}

fn no_good_character(byte: u8) -> String {
    match byte {
        0 => "byte 0 stands here; save the file as plain text in UTF-8".to_string(),
        13 => "a carriage return (byte 13) stands here; \
               save the file with LF line ends, not CR LF"
            .to_string(),
        _ => {
            format!("the bytes from 0x{byte:02X} on are no UTF-8 character; save the file in UTF-8")
        }
    }
}

fn too_deep() -> String {
    format!(
        "this bracket opens while {MOST_BRACKETS_OPEN} are open, the most there may be; \
         close some, or write \\[ where a bracket is only text"
    )
}

fn no_definition(texts: &Texts) -> String {
    let (where_looked, they_have) = match texts.files.sheet {
        None => ("the note", "it has"),
        Some(_) => ("the note or the sheet", "they have"),
    };
    format!(
        "no definition in {where_looked} has this label; \
         'notice links' lists the labels that {they_have}"
    )
}

const NO_LABEL: &str = "this is not one label; give it without its brackets, not blank, \
                        in at most 999 characters, with \\[ and \\] for brackets inside it";

#[cfg(test)]
mod tests {
    use super::fault;
    use crate::fault::Fault;
    use crate::library::{Failure, Refusal};
    use crate::texts::Texts;

    fn fault_of(number: u32, value: u64, text: u64, sheet: Option<&str>) -> Fault {
        let refusal = Refusal {
            number,
            value,
            text,
        };
        let definitions = Vec::new();
        let failure = Failure::Refused {
            refusal,
            definitions,
        };
        fault(failure, &Texts::of("a\nb\0", sheet))
    }

    /// The definition whose number refusal 9 returns is the sheet's; the refusal names this text.
    fn conflict(text: u64) -> Fault {
        let refusal = Refusal {
            number: 9,
            value: 2,
            text,
        };
        let failure = Failure::Refused {
            refusal,
            definitions: [[0, 1, 2, 5, 6, 0, 0, 1], [1, 2, 3, 6, 7, 0, 0, 2]].concat(),
        };
        fault(failure, &Texts::of("[a]: b", Some("\n[a]: c")))
    }

    #[test]
    fn answers_that_the_promise_excludes_are_faults_of_the_library() {
        for (number, value) in [(0, 0), (3, 1), (6, 1), (9, 0), (2, 4), (4, u64::MAX)] {
            for text in [0, 1] {
                let fault = fault_of(number, value, text, Some("c\n"));
                assert_eq!(fault.status(), 70, "{number} {value} {text}");
            }
        }
        for (number, value) in [(4, 0), (7, 0), (8, 0)] {
            let fault = fault_of(number, value, 1, Some("c\n"));
            assert_eq!(fault.status(), 70, "{number} of the sheet");
        }
        for text in [1, 2] {
            assert_eq!(conflict(text).status(), 70, "9 of text {text}");
        }
        assert_eq!(fault_of(1, 40_000, 2, Some("")).status(), 70);
        assert_eq!(fault_of(1, 40_000, 1, None).status(), 70);
    }

    #[test]
    fn a_place_is_a_line_and_a_column_of_its_own_text() {
        let said = |number, value, text| fault_of(number, value, text, Some("c\0")).to_string();
        assert!(said(2, 3, 0).starts_with("note:2:2: refusal 2: byte 0 "));
        assert!(said(2, 1, 1).starts_with("sheet:1:2: refusal 2: byte 0 "));
        assert!(said(1, 40_000, 1).starts_with("sheet:1:1: refusal 1: the sheet has 40000 "));
        assert!(said(7, 0, 0).starts_with("note:1:1: refusal 7: "));
    }

    #[test]
    fn a_conflict_stands_where_its_definition_does() {
        let fault = conflict(0);
        assert_eq!(fault.status(), 9);
        assert_eq!(
            fault.to_string(),
            "sheet:2:1: refusal 9: \"[a]\" opens c here and b at line 1 of note; keep one"
        );
    }
}
