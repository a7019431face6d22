//! What `notice links` lists: definitions, links, images and code spans, each with its place and text.

use std::borrow::Cow;
use std::ops::Range;

use crate::definitions::{Definitions, Difference};
use crate::library::{self, Failure};
use crate::places::Place;
use crate::rows::{self, Form, Kind, SpanRow};
use crate::texts::{Texts, Which};

/// A part of the note or the sheet, and its text.
pub struct Part<'n> {
    pub range: Range<usize>,
    pub text: Cow<'n, str>,
}

/// A link reference definition.
pub struct Definition<'n> {
    /// The text where it stands.
    pub which: Which,
    /// The place of its label's opening bracket.
    pub place: Place,
    pub label: Part<'n>,
    pub destination: Part<'n>,
    pub title: Option<Part<'n>>,
    pub hidden: Option<Hidden>,
}

/// That an earlier definition has an equal label, so that no reference opens this one.
#[derive(Clone, Copy, Debug, PartialEq, Eq)]
pub struct Hidden {
    pub by: Named,
    /// Whether the two differ, byte by byte as they are written.
    pub destination_differs: bool,
    pub title_differs: bool,
}

/// A definition as others name it.
#[derive(Clone, Copy, Debug, PartialEq, Eq)]
pub struct Named {
    /// From 1, the note's first and then the sheet's.
    pub number: usize,
    pub which: Which,
    pub line: usize,
}

/// A link or an image.
pub struct Link<'n> {
    pub form: Form,
    pub place: Place,
    pub whole: Range<usize>,
    pub text: Part<'n>,
    pub definition: Option<Named>,
    pub destination: Option<Part<'n>>,
    pub title: Option<Part<'n>>,
}

/// A code span.
pub struct Code<'n> {
    pub place: Place,
    pub whole: Range<usize>,
    pub text: Part<'n>,
}

/// Everything listed, in order: the note's definitions, then the sheet's; the note's links, images and code
/// spans.
pub struct Listing<'n> {
    pub definitions: Vec<Definition<'n>>,
    pub links: Vec<Link<'n>>,
    pub images: Vec<Link<'n>>,
    pub codes: Vec<Code<'n>>,
}

/// Lists a note and the sheet beside it.
pub fn of(texts: &Texts) -> Result<Listing<'_>, Failure> {
    let tables = library::read(texts, false)?;
    let spans =
        rows::spans(&tables.spans).ok_or_else(|| library::fault("a span row of no kind"))?;
    let definitions = Definitions::of(texts, &tables.definitions)?;
    let lister = Lister { texts, definitions };
    let mut listing = Listing {
        definitions: lister.definitions()?,
        links: Vec::new(),
        images: Vec::new(),
        codes: Vec::new(),
    };
    for row in spans {
        match row.kind {
            Kind::Code => listing.codes.push(lister.code(row)),
            Kind::Link(form) => listing.links.push(lister.link(form, row)?),
            Kind::Image(form) => listing.images.push(lister.link(form, row)?),
        }
    }
    Ok(listing)
}

struct Lister<'n> {
    texts: &'n Texts,
    definitions: Definitions<'n>,
}

impl<'n> Lister<'n> {
    fn part(&self, which: Which, range: Range<usize>) -> Part<'n> {
        let texts: &'n Texts = self.texts;
        Part {
            text: String::from_utf8_lossy(&texts.bytes(which)[range.clone()]),
            range,
        }
    }

    fn optional(&self, which: Which, range: Option<Range<usize>>) -> Option<Part<'n>> {
        range.map(|range| self.part(which, range))
    }

    fn definitions(&self) -> Result<Vec<Definition<'n>>, Failure> {
        let indices = 0..self.definitions.rows.len();
        indices.map(|index| self.definition(index)).collect()
    }

    fn definition(&self, index: usize) -> Result<Definition<'n>, Failure> {
        let row = &self.definitions.rows[index];
        let which = row.which;
        let hidden_by = self.definitions.first_equal(index, |_| true)?;
        Ok(Definition {
            which,
            place: self.definitions.place(index),
            label: self.part(which, row.label.clone()),
            destination: self.part(which, row.destination.clone()),
            title: self.optional(which, row.title.clone()),
            hidden: hidden_by.map(|first| self.hidden(index, first)),
        })
    }

    fn hidden(&self, index: usize, first: usize) -> Hidden {
        let Difference { destination, title } = self.definitions.difference(index, first);
        Hidden {
            by: self.named(first),
            destination_differs: destination,
            title_differs: title,
        }
    }

    fn named(&self, index: usize) -> Named {
        let row = &self.definitions.rows[index];
        Named {
            number: index + 1,
            which: row.which,
            line: row.line,
        }
    }

    /// A link or an image.
    fn link(&self, form: Form, row: SpanRow) -> Result<Link<'n>, Failure> {
        let definitions = self.definitions.rows.len();
        if row.definition.is_some_and(|number| number > definitions) {
            return Err(library::fault("a reference to no definition"));
        }
        let definition = row.definition.map(|number| self.named(number - 1));
        let target = definition.map_or(Which::Note, |named| named.which);
        Ok(Link {
            form,
            place: self.place(&row),
            whole: row.whole,
            text: self.part(Which::Note, row.text),
            definition,
            destination: self.optional(target, row.destination),
            title: self.optional(target, row.title),
        })
    }

    fn code(&self, row: SpanRow) -> Code<'n> {
        Code {
            place: self.place(&row),
            whole: row.whole,
            text: self.part(Which::Note, row.text),
        }
    }

    /// Where a span starts.
    fn place(&self, row: &SpanRow) -> Place {
        Place::on_line(row.line, &self.texts.note, row.whole.start)
    }
}

#[cfg(test)]
mod tests {
    use super::{of, Hidden, Named};
    use crate::texts::{Texts, Which};

    fn hidden(note: &str, sheet: Option<&str>) -> Vec<Option<Hidden>> {
        let texts = Texts::of(note, sheet);
        let listing = of(&texts).expect("a good note");
        listing
            .definitions
            .iter()
            .map(|definition| definition.hidden)
            .collect()
    }

    fn by(named: (usize, Which, usize), destination: bool, title: bool) -> Option<Hidden> {
        let (number, which, line) = named;
        Some(Hidden {
            by: Named {
                number,
                which,
                line,
            },
            destination_differs: destination,
            title_differs: title,
        })
    }

    #[test]
    fn the_first_definition_of_a_label_hides_the_others() {
        let note = "[a]: x\n[B b]: y 't'\n[A]: x\n[ b\tB ]: y (t)\n[a]: z 't'\n[b b]: y\n";
        let (first, second) = ((1, Which::Note, 1), (2, Which::Note, 2));
        let wanted = [
            None,
            None,
            by(first, false, false),
            by(second, false, false),
            by(first, true, true),
            by(second, false, true),
        ];
        assert_eq!(hidden(note, None), wanted);
        assert_eq!(
            hidden(note, Some("[c]: x")),
            [&wanted[..], &[None]].concat()
        );
    }

    #[test]
    fn the_note_hides_the_sheet_and_the_sheet_itself() {
        let sheet = "\n[A]: x 't'\n[b]: y\n[B]: z\n";
        let (first, second) = ((1, Which::Note, 2), (3, Which::Sheet, 3));
        let wanted = [None, by(first, false, true), None, by(second, true, false)];
        assert_eq!(hidden("\n[a]: x\n", Some(sheet)), wanted);
        let wanted = [None, None, by((2, Which::Sheet, 3), true, false)];
        assert_eq!(hidden("", Some(sheet)), wanted);
    }

    #[test]
    fn empty_destinations_have_their_own_places() {
        let note = "[a]: <>\n[b]: <>\n[a]: <>\n[b]: <> \"\"\n";
        let (first, second) = ((1, Which::Note, 1), (2, Which::Note, 2));
        let wanted = [None, None, by(first, false, false), by(second, false, true)];
        assert_eq!(hidden(note, None), wanted);
    }

    #[test]
    fn escapes_are_not_undone_in_labels() {
        assert_eq!(hidden("[a!]: x\n[a\\!]: x\n", None), [None, None]);
    }
}
