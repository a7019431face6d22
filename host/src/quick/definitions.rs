//! Blocks, their definitions, and their paragraphs.

use super::bytes::{after_space, classes, INK};
use super::labels::{label, Label};
use super::targets::{destination, title, Part};
use crate::second::{DefinitionRow, Origin};

/// The rows of the joined list.
#[derive(Default)]
pub struct Definitions {
    pub rows: Vec<DefinitionRow>,
    /// Whether the label of each has to be written anew to be compared.
    rough: Vec<bool>,
}

/// What is left of a block.
#[derive(Clone, Copy)]
pub struct Paragraph {
    pub start: usize,
    pub end: usize,
    /// The line of its start, from 1.
    pub line: usize,
}

/// A definition, and where the line after it starts.
struct Definition {
    label: Label,
    destination: Part,
    title: Option<Part>,
    next: usize,
}

/// What a definition says of its label.
pub type Said<'t> = (&'t [u8], Option<&'t [u8]>);

impl Definitions {
    pub fn clear(&mut self) {
        self.rows.clear();
        self.rough.clear();
    }

    /// Each label with the number of its text.
    pub fn labels(&self) -> impl Iterator<Item = (usize, Label)> + '_ {
        let rows = self.rows.iter().zip(&self.rough);
        rows.map(|(row, rough)| {
            let [text, start, end, ..] = row.map(|number| number as usize);
            let rough = *rough;
            (text, Label { start, end, rough })
        })
    }

    /// An absent title has a row of 0, 0; where there is one, a destination and a delimiter stand before it.
    pub fn said<'t>(&self, place: usize, texts: [&'t [u8]; 2]) -> Said<'t> {
        let [text, _, _, start, end, title, title_end, _] =
            self.rows[place].map(|number| number as usize);
        let text = texts[text];
        (
            &text[start..end],
            (title > 0).then(|| &text[title..title_end]),
        )
    }

    /// Takes the definitions of a text and lists its paragraphs.
    pub fn outline(
        &mut self,
        text: &[u8],
        origin: Origin,
        lines: &[u32],
        paragraphs: &mut Vec<Paragraph>,
    ) {
        let mut line = 0;
        while line + 1 < lines.len() {
            if is_blank(text, lines[line] as usize) {
                line += 1;
                continue;
            }
            let first = line;
            line = block_end(text, lines, line);
            let block = &text[..lines[line] as usize];
            let (start, own) = self.take(block, origin, lines, first);
            if start < block.len() {
                let end = block.len() - usize::from(block.ends_with(b"\n"));
                let line = own + 1;
                paragraphs.push(Paragraph { start, end, line });
            }
        }
    }

    /// Takes definitions from a line on while there are any. Answers where the rest of the block starts, and its line,
    /// from 0.
    fn take(
        &mut self,
        block: &[u8],
        origin: Origin,
        lines: &[u32],
        mut line: usize,
    ) -> (usize, usize) {
        let mut at = lines[line] as usize;
        while let Some(definition) = definition(block, at) {
            self.rows.push(definition.row(origin, line));
            self.rough.push(definition.label.rough);
            at = definition.next;
            line += 1;
            while (lines[line] as usize) < at {
                line += 1;
            }
        }
        (at, line)
    }
}

impl Definition {
    fn row(&self, origin: Origin, line: usize) -> DefinitionRow {
        let title = self.title.unwrap_or(Part { start: 0, end: 0 });
        let [start, end] = [self.label.start, self.label.end].map(|place| place as u32);
        let [destination, destination_end] = self.destination.numbers();
        let [title, title_end] = title.numbers();
        let line = line as u32 + 1;
        [
            origin.number() as u32,
            start,
            end,
            destination,
            destination_end,
            title,
            title_end,
            line,
        ]
    }
}

/// Whether the line that starts here has only spaces and tabs.
fn is_blank(text: &[u8], start: usize) -> bool {
    let mut at = start;
    while let Some(b' ' | b'\t') = text.get(at) {
        at += 1;
    }
    text.get(at).is_none_or(|byte| classes(*byte) & INK == 0)
}

/// The first blank line after this one, or where lines end.
fn block_end(text: &[u8], lines: &[u32], mut line: usize) -> usize {
    line += 1;
    while line + 1 < lines.len() && !is_blank(text, lines[line] as usize) {
        line += 1;
    }
    line
}

/// The definition that a line starts with.
fn definition(block: &[u8], at: usize) -> Option<Definition> {
    let spaces = block[at..].iter().take(3);
    let open = at + spaces.take_while(|byte| **byte == b' ').count();
    if block.get(open) != Some(&b'[') {
        return None;
    }
    let label = label(block, open + 1)?;
    if block.get(label.end + 1) != Some(&b':') {
        return None;
    }
    let (destination, after) = destination(block, after_space(block, label.end + 2))?;
    let (title, next) = match title_line(block, after) {
        Some((title, next)) => (Some(title), next),
        None => (None, line_end(block, after)?),
    };
    Some(Definition {
        label,
        destination,
        title,
        next,
    })
}

/// Space, a title and the end of its line; answers where the next line starts.
fn title_line(block: &[u8], from: usize) -> Option<(Part, usize)> {
    let at = after_space(block, from);
    if at == from {
        return None;
    }
    let title = title(block, at)?;
    let next = line_end(block, title.end + 1)?;
    Some((title, next))
}

/// Where the next line starts, if there are only spaces and tabs up to it.
fn line_end(block: &[u8], mut at: usize) -> Option<usize> {
    while let Some(b' ' | b'\t') = block.get(at) {
        at += 1;
    }
    match block.get(at) {
        None => Some(at),
        Some(b'\n') => Some(at + 1),
        Some(_) => None,
    }
}
