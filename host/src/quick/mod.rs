//! A third reader, without proofs, made to be fast: what the proved reader's speed is held against.
//!
//! It gives definition rows and span rows, as the exported reader does, and no page. A text is checked and cut into lines
//! in one pass, eight bytes at a time. The lines give its blocks; their definitions are taken, and what is left are
//! paragraphs. Each paragraph of the note is walked through once, from mark to mark, with a stack of open brackets. Labels
//! are looked up in a sorted index. Rows are made in memory that a [`Reader`] keeps from call to call, and copied to the
//! tables lent once it is known that they have room.
//!
//! The rooms: `bytes`, `check`, `labels` and `folding`, `targets`, `definitions`, `index`, `walk` with `ticks`, `tails` and
//! `parentheses`.

mod bytes;
mod check;
mod definitions;
mod folding;
mod index;
mod labels;
mod parentheses;
mod tails;
mod targets;
mod ticks;
mod walk;

use crate::entries::Reading;
use crate::second::{number, Origin};
use definitions::{Definitions, Paragraph};
use index::{Index, Labels};
use walk::{Memory, Walk};

/// The memory of the reader. What it holds between calls means nothing.
#[derive(Default)]
pub struct Reader {
    lines: Vec<u32>,
    lines_of_sheet: Vec<u32>,
    definitions: Definitions,
    paragraphs: Vec<Paragraph>,
    index: Index,
    memory: Memory,
}

/// A line of the table of refusals.
struct Refusal {
    number: u32,
    value: usize,
    text: usize,
}

impl Refusal {
    /// One that names no text.
    fn of(number: u32, value: usize) -> Refusal {
        let text = Origin::Note.number();
        Refusal {
            number,
            value,
            text,
        }
    }
}

impl Reader {
    /// Reads a note with a sheet of definitions beside it and fills the two tables, or refuses, as
    /// [`crate::entries::read`] does.
    pub fn read(
        &mut self,
        note: &[u8],
        sheet: &[u8],
        release: bool,
        definitions: &mut [u32],
        spans: &mut [u32],
    ) -> Reading {
        match self.fill([note, sheet], release, definitions, spans) {
            Ok([definitions, spans]) => Reading {
                number: number::SUCCESS,
                value: 0,
                definitions: definitions as u64,
                spans: spans as u64,
                text: 0,
            },
            Err(refusal) => Reading {
                number: refusal.number,
                value: refusal.value as u64,
                definitions: 0,
                spans: 0,
                text: refusal.text as u64,
            },
        }
    }

    /// Answers how many rows there are in each table.
    fn fill(
        &mut self,
        texts: [&[u8]; 2],
        release: bool,
        definitions: &mut [u32],
        spans: &mut [u32],
    ) -> Result<[usize; 2], Refusal> {
        let [note, sheet] = texts;
        check::check(note, Origin::Note, &mut self.lines)?;
        check::check(sheet, Origin::Sheet, &mut self.lines_of_sheet)?;
        self.outline(note, sheet);
        let defined = &self.definitions.rows;
        hand_over(defined, definitions, number::FEW_DEFINITION_ROWS)?;
        let mut labels = Labels::new(&mut self.index, &self.definitions, texts);
        if release {
            if let Some(place) = labels.first_conflict() {
                return Err(Refusal::of(number::CONFLICTING_DEFINITIONS, place + 1));
            }
        }
        self.memory.clear();
        let mut walk = Walk::new(&mut self.memory, labels, &self.lines);
        for paragraph in &self.paragraphs {
            walk.through(*paragraph)?;
        }
        hand_over(&self.memory.spans, spans, number::FEW_SPAN_ROWS)?;
        Ok([defined.len(), self.memory.spans.len()])
    }

    /// The definitions of both texts, and the note's paragraphs.
    fn outline(&mut self, note: &[u8], sheet: &[u8]) {
        let definitions = &mut self.definitions;
        definitions.clear();
        self.paragraphs.clear();
        definitions.outline(note, Origin::Note, &self.lines, &mut self.paragraphs);
        let of_note = self.paragraphs.len();
        definitions.outline(
            sheet,
            Origin::Sheet,
            &self.lines_of_sheet,
            &mut self.paragraphs,
        );
        self.paragraphs.truncate(of_note);
    }
}

/// Copies the rows to the table lent, or tells how many are needed.
fn hand_over<const WIDTH: usize>(
    rows: &[[u32; WIDTH]],
    table: &mut [u32],
    refusal: u32,
) -> Result<(), Refusal> {
    if table.len() / WIDTH < rows.len() {
        return Err(Refusal::of(refusal, rows.len()));
    }
    let numbers = rows.as_flattened();
    table[..numbers.len()].copy_from_slice(numbers);
    Ok(())
}
