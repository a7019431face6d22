//! The library for a release and for none, held against each other.

use crate::compare::{Lending, Texts};
use crate::lent::{byte_guard, number_guard};
use host::entries::{self, Reading, Rendering};

/// What a call answers, and what it leaves in the memory lent to it.
#[derive(Debug, PartialEq, Eq)]
struct After {
    answer: Rendering,
    definitions: Vec<u32>,
    spans: Vec<u32>,
    page: Vec<u8>,
}

impl After {
    /// Memory as it is lent, and an answer with this number and value.
    fn nothing(lending: Lending, number: u32, value: u64) -> After {
        let numbers = |count: usize| (0..count).map(number_guard).collect();
        After {
            answer: Rendering {
                number,
                value,
                definitions: 0,
                spans: 0,
                length: 0,
                text: 0,
            },
            definitions: numbers(lending.definition_numbers),
            spans: numbers(lending.span_numbers),
            page: (0..lending.page_bytes).map(byte_guard).collect(),
        }
    }

    /// The reader, which has no page.
    fn read(texts: Texts, release: bool, lending: Lending) -> After {
        let mut after = After::nothing(lending, 0, 0);
        let [definitions, spans] = [&mut after.definitions, &mut after.spans];
        let Reading {
            number,
            value,
            definitions,
            spans,
            text,
        } = entries::read(texts.note, texts.sheet, release, definitions, spans);
        after.answer = Rendering {
            number,
            value,
            definitions,
            spans,
            length: 0,
            text,
        };
        after
    }

    /// The page writer.
    fn render(texts: Texts, release: bool, lending: Lending) -> After {
        let mut after = After::nothing(lending, 0, 0);
        after.answer = entries::render(
            texts.note,
            texts.sheet,
            release,
            &mut after.definitions,
            &mut after.spans,
            &mut after.page,
        );
        after
    }

    /// What is wanted for a release that is stopped at this row, given what there is for none: the definition
    /// table as it is there, and nothing else.
    fn stopped(self, row: u64, lending: Lending) -> Result<After, String> {
        let Rendering {
            number,
            definitions,
            ..
        } = self.answer;
        if (1..=3).contains(&number) || row < 2 || (number == 0 && row > definitions) {
            return Err(format!("stopped at row {row}, for none {:?}", self.answer));
        }
        Ok(After {
            definitions: self.definitions,
            ..After::nothing(lending, 9, row)
        })
    }
}

/// "With no, all old answers hold": where a release is not stopped, every number and every byte is as for none.
pub fn compare(texts: Texts, lending: Lending) -> Result<(), String> {
    for call in [After::read, After::render] {
        let [released, none] = [true, false].map(|release| call(texts, release, lending));
        let Rendering { number, value, .. } = released.answer;
        let wanted = if number == 9 {
            none.stopped(value, lending)?
        } else {
            none
        };
        if released != wanted {
            return Err(format!(
                "with {lending:?}\n  for a release {released:?}\n  wanted        {wanted:?}"
            ));
        }
    }
    Ok(())
}
