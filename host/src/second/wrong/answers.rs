//! Misreadings of answers, and of what is left in lent memory.

use super::super::answers::{number, Lent, Refusal, RenderAnswer, ResolveAnswer};
use super::super::rows::{DEFINITION_ROW_WIDTH, SPAN_ROW_WIDTH};
use super::{Reader, Wrong};

impl Reader {
    /// "whole .. rows lent".
    pub(in super::super) fn rows_lent(self, numbers: usize, width: usize) -> usize {
        match self.wrong {
            Some(Wrong::PartRowsCount) => numbers.div_ceil(width),
            Some(Wrong::LineTakesNoRoom) => numbers / (width - 1),
            _ => numbers / width,
        }
    }

    /// The same of the definition table.
    pub(in super::super) fn definition_rows_lent(self, numbers: usize) -> usize {
        let width = match self.wrong {
            Some(Wrong::TextTakesNoRoom) => DEFINITION_ROW_WIDTH - 1,
            _ => DEFINITION_ROW_WIDTH,
        };
        self.rows_lent(numbers, width)
    }

    /// What is needed.
    pub(in super::super) fn need(self, needed: usize, lent: usize) -> usize {
        match self.wrong {
            Some(Wrong::ValueIsMissing) => needed.saturating_sub(lent),
            _ => needed,
        }
    }

    /// The answer as it is; wrong readings change what it counts and what it leaves.
    pub(in super::super) fn misread_answer(
        self,
        mut answer: RenderAnswer,
        lent: Lent,
    ) -> RenderAnswer {
        let given = answer.number;
        answer.text = self.misread_name(given, answer.text);
        let written = |count: Option<usize>| count.unwrap_or_default();
        match self.wrong {
            Some(Wrong::LengthIsValue) if given == number::SUCCESS => {
                answer.value = answer.page_length;
            }
            Some(Wrong::CountsOnRefusal) => {
                answer.definition_count = written(answer.definition_rows.as_ref().map(Vec::len));
                answer.span_count = written(answer.span_rows.as_ref().map(Vec::len));
            }
            Some(Wrong::DefinitionsTakenBack)
                if matches!(given, number::BRACKETS_TOO_DEEP | number::FEW_SPAN_ROWS) =>
            {
                answer.definition_rows = None;
            }
            Some(Wrong::TablesTakenBack) if given == number::PAGE_TOO_SHORT => {
                answer.definition_rows = None;
                answer.span_rows = None;
            }
            Some(Wrong::DefinitionTableCleared) => {
                let rows = lent.definition_numbers / DEFINITION_ROW_WIDTH;
                clear_past(&mut answer.definition_rows, rows, [0; DEFINITION_ROW_WIDTH]);
            }
            Some(Wrong::SpanTableCleared) => {
                let rows = lent.span_numbers / SPAN_ROW_WIDTH;
                clear_past(&mut answer.span_rows, rows, [0; SPAN_ROW_WIDTH]);
            }
            Some(Wrong::PageCleared) => {
                clear_past(&mut answer.page, lent.page_bytes.unwrap_or_default(), 0);
            }
            _ => {}
        }
        answer
    }

    /// The label that is asked for, as it is.
    pub(in super::super) fn misread_asked(self, label: &[u8]) -> &[u8] {
        let bare = label
            .strip_prefix(b"[")
            .and_then(|rest| rest.strip_suffix(b"]"));
        match self.wrong {
            Some(Wrong::LabelWithBrackets) => bare.unwrap_or(label),
            _ => label,
        }
    }

    /// Whether a wrong reading takes for a label what is none.
    pub(in super::super) fn misreads_label(self, label: &str) -> bool {
        let unescaped = label.strip_suffix('\\');
        self.misreads(Wrong::LabelJudgedAlone)
            && unescaped.is_some_and(|label| self.is_label(label))
    }

    /// A destination that was found, of the definition with this number.
    pub(in super::super) fn misread_found(
        self,
        answer: ResolveAnswer,
        definition: usize,
    ) -> Result<ResolveAnswer, Refusal> {
        match self.wrong {
            Some(Wrong::EmptyDestinationUndefined) if answer.destination.is_empty() => {
                Err(Refusal::of(number::LABEL_UNDEFINED, 0))
            }
            Some(Wrong::ValueIsDefinition) => Ok(ResolveAnswer {
                value: definition,
                ..answer
            }),
            _ => Ok(answer),
        }
    }
}

/// Rows or bytes up to so many, the ones past those in use cleared.
fn clear_past<T: Clone>(written: &mut Option<Vec<T>>, lent: usize, cleared: T) {
    if let Some(written) = written {
        written.resize(lent.max(written.len()), cleared);
    }
}
