//! The rows of the two tables, by name.

use std::ops::Range;

use crate::texts::Which;

/// "Definition row, six 32-bit numbers", "a leading number, 0 for note and 1 for sheet", and "one
/// more number at its end", the line.
pub const DEFINITION_WIDTH: usize = 8;
/// "ten 32-bit numbers a row", and the line.
pub const SPAN_WIDTH: usize = 11;

/// A definition's parts, as places in the text where it stands.
#[derive(Debug, PartialEq, Eq)]
pub struct DefinitionRow {
    pub which: Which,
    pub label: Range<usize>,
    pub destination: Range<usize>,
    pub title: Option<Range<usize>>,
    /// "the line of the label's opening bracket".
    pub line: usize,
}

/// "The five kinds of row have fixed numbers", and so have the four of images.
#[derive(Clone, Copy, Debug, PartialEq, Eq)]
pub enum Kind {
    Code,
    Link(Form),
    Image(Form),
}

/// What stands after the second bracket of a link or an image.
#[derive(Clone, Copy, Debug, PartialEq, Eq)]
pub enum Form {
    Inline,
    Full,
    Collapsed,
    Shortcut,
}

/// A span's parts, as places in the note; a reference's destination and title "lie in the text that
/// its definition row names".
#[derive(Debug, PartialEq, Eq)]
pub struct SpanRow {
    pub kind: Kind,
    pub whole: Range<usize>,
    pub text: Range<usize>,
    /// The number of a reference's definition, from 1.
    pub definition: Option<usize>,
    pub destination: Option<Range<usize>>,
    pub title: Option<Range<usize>>,
    /// The line "of the span's start".
    pub line: usize,
}

impl Kind {
    /// The kind that this number stands for.
    fn of(number: u32) -> Option<Kind> {
        match number {
            1 => Some(Kind::Code),
            2 => Some(Kind::Link(Form::Inline)),
            3 => Some(Kind::Link(Form::Full)),
            4 => Some(Kind::Link(Form::Collapsed)),
            5 => Some(Kind::Link(Form::Shortcut)),
            6 => Some(Kind::Image(Form::Inline)),
            7 => Some(Kind::Image(Form::Full)),
            8 => Some(Kind::Image(Form::Collapsed)),
            9 => Some(Kind::Image(Form::Shortcut)),
            _ => None,
        }
    }
}

impl Form {
    pub fn word(self) -> &'static str {
        match self {
            Form::Inline => "inline",
            Form::Full => "full",
            Form::Collapsed => "collapsed",
            Form::Shortcut => "shortcut",
        }
    }
}

/// The rows of a definition table; none at all if some row names no text.
pub fn definitions(table: &[u32]) -> Option<Vec<DefinitionRow>> {
    table
        .chunks_exact(DEFINITION_WIDTH)
        .map(definition)
        .collect()
}

fn definition(row: &[u32]) -> Option<DefinitionRow> {
    Some(DefinitionRow {
        which: Which::of(row[0].into())?,
        label: range(row[1], row[2]),
        destination: range(row[3], row[4]),
        title: part(row[5], row[6]),
        line: row[7] as usize,
    })
}

/// The rows of a span table; none at all if some row has no kind that is known.
pub fn spans(table: &[u32]) -> Option<Vec<SpanRow>> {
    table.chunks_exact(SPAN_WIDTH).map(span).collect()
}

fn span(row: &[u32]) -> Option<SpanRow> {
    Some(SpanRow {
        kind: Kind::of(row[0])?,
        whole: range(row[1], row[2]),
        text: range(row[3], row[4]),
        definition: (row[5] != 0).then_some(row[5] as usize),
        destination: part(row[6], row[7]),
        title: part(row[8], row[9]),
        line: row[10] as usize,
    })
}

fn range(start: u32, end: u32) -> Range<usize> {
    start as usize..end as usize
}

/// "An absent part is 0, 0"; an empty one stands at its place, which is never a text's start.
fn part(start: u32, end: u32) -> Option<Range<usize>> {
    (end != 0).then(|| range(start, end))
}

#[cfg(test)]
mod tests {
    use super::{definitions, spans, DefinitionRow, Form, Kind, SpanRow};
    use crate::texts::Which;

    /// The numbers of a row all differ, so that none can stand for another.
    #[test]
    fn every_number_has_its_name() {
        let row = |which, line| DefinitionRow {
            which,
            label: 11..12,
            destination: 13..14,
            title: Some(15..16),
            line,
        };
        let table = [
            [0, 11, 12, 13, 14, 15, 16, 17],
            [1, 11, 12, 13, 14, 15, 16, 18],
        ];
        let rows = [row(Which::Note, 17), row(Which::Sheet, 18)];
        assert_eq!(definitions(&table.concat()), Some(rows.into()));
        let row = |kind, line| SpanRow {
            kind,
            whole: 21..22,
            text: 23..24,
            definition: Some(25),
            destination: Some(26..27),
            title: Some(28..29),
            line,
        };
        let table = [
            [3, 21, 22, 23, 24, 25, 26, 27, 28, 29, 30],
            [9, 21, 22, 23, 24, 25, 26, 27, 28, 29, 31],
        ];
        let rows = [
            row(Kind::Link(Form::Full), 30),
            row(Kind::Image(Form::Shortcut), 31),
        ];
        assert_eq!(spans(&table.concat()), Some(rows.into()));
    }

    #[test]
    fn absent_parts() {
        let row = &definitions(&[0, 1, 2, 5, 6, 0, 0, 1]).expect("a definition")[0];
        assert_eq!(row.title, None);
        let row = &spans(&[1, 0, 3, 1, 2, 0, 0, 0, 0, 0, 1]).expect("a code span")[0];
        assert_eq!(
            (row.definition, &row.destination, &row.title),
            (None, &None, &None)
        );
    }

    #[test]
    fn every_kind_has_its_number() {
        let forms = [Form::Inline, Form::Full, Form::Collapsed, Form::Shortcut];
        let mut wanted = vec![Kind::Code];
        wanted.extend(forms.map(Kind::Link));
        wanted.extend(forms.map(Kind::Image));
        let kinds = (1..=9).filter_map(Kind::of);
        assert_eq!(kinds.collect::<Vec<_>>(), wanted);
    }

    #[test]
    fn numbers_that_stand_for_nothing() {
        assert_eq!(definitions(&[2, 1, 2, 5, 6, 0, 0, 1]), None);
        for kind in [0, 10] {
            assert_eq!(spans(&[kind, 0, 3, 1, 2, 0, 0, 0, 0, 0, 1]), None);
        }
    }
}
