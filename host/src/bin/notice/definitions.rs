//! The definitions of both texts, by the rows of their table: their parts, and how one stands to another.

use std::ops::Range;

use crate::library::{self, Failure};
use crate::places::Place;
use crate::rows::{self, DefinitionRow};
use crate::texts::Texts;

/// The note's definitions, then the sheet's.
pub struct Definitions<'t> {
    texts: &'t Texts,
    pub rows: Vec<DefinitionRow>,
}

/// In what two definitions differ, byte by byte as they are written.
#[derive(Clone, Copy, Debug, PartialEq, Eq)]
pub struct Difference {
    pub destination: bool,
    /// In the title, or in whether there is one.
    pub title: bool,
}

impl<'t> Definitions<'t> {
    /// The definitions that a table holds.
    pub fn of(texts: &'t Texts, table: &[u32]) -> Result<Definitions<'t>, Failure> {
        let rows = rows::definitions(table)
            .ok_or_else(|| library::fault("a definition row of no text"))?;
        Ok(Definitions { texts, rows })
    }

    /// Where the label's opening bracket stands.
    pub fn place(&self, index: usize) -> Place {
        let row = &self.rows[index];
        Place::on_line(row.line, self.texts.bytes(row.which), row.label.start - 1)
    }

    pub fn label(&self, index: usize) -> &'t [u8] {
        self.part(index, &self.rows[index].label)
    }

    pub fn destination(&self, index: usize) -> &'t [u8] {
        self.part(index, &self.rows[index].destination)
    }

    pub fn title(&self, index: usize) -> Option<&'t [u8]> {
        let title = self.rows[index].title.as_ref();
        title.map(|range| self.part(index, range))
    }

    /// A part of the text where a definition stands.
    fn part(&self, index: usize, range: &Range<usize>) -> &'t [u8] {
        let texts: &'t Texts = self.texts;
        &texts.bytes(self.rows[index].which)[range.clone()]
    }

    pub fn difference(&self, one: usize, other: usize) -> Difference {
        Difference {
            destination: self.destination(one) != self.destination(other),
            title: self.title(one) != self.title(other),
        }
    }

    /// The first definition before this one that has an equal label and is one of those asked for.
    pub fn first_equal(
        &self,
        later: usize,
        asked_for: impl Fn(usize) -> bool,
    ) -> Result<Option<usize>, Failure> {
        for earlier in 0..later {
            let equal = library::same_label(self.label(earlier), self.label(later))?;
            if equal && asked_for(earlier) {
                return Ok(Some(earlier));
            }
        }
        Ok(None)
    }
}
