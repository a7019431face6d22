//! Blocks, link reference definitions, and what is left of a block: its paragraph.

use super::source::{Origin, Source};
use super::text::{is_space, Descent, Part, Text};
use super::wrong::{Gap, Purpose};
use super::{Reader, Wrong};

/// A definition with the text that it stands in and its label's compared form.
#[derive(Debug)]
pub(super) struct Definition<'t> {
    pub source: &'t Source<'t>,
    pub label: Part,
    pub destination: Part,
    pub title: Option<Part>,
    pub compared_label: Vec<u8>,
}

impl Definition<'_> {
    pub fn is_of_sheet(&self) -> bool {
        self.source.origin == Origin::Sheet
    }
}

/// What stands in a text: its definitions and its paragraphs, both in its order.
pub(super) struct Outline<'t> {
    pub definitions: Vec<Definition<'t>>,
    pub paragraphs: Vec<Text>,
}

impl Descent<'_> {
    /// "A definition: at most three spaces, `[`, label, `]`, `:`, optional space, a destination,
    /// then either at least one byte of space, a title, any or no spaces and tabs, end of line; or,
    /// only if that fails, any or no spaces and tabs and end of line."
    fn definition(&mut self) -> Option<(Part, Part, Option<Part>)> {
        self.at_most_three_spaces();
        let label = self.bracketed_label()?;
        if self.misreads(Wrong::SpaceBeforeColon) {
            self.spaces_and_tabs(Gap::BeforeDestination);
        }
        self.exactly(':')?;
        if self.misreads(Wrong::SpaceAfterColonNeeded) {
            self.some_space(Gap::BeforeDestination)?;
        }
        self.optional_space(Gap::BeforeDestination);
        let destination = self.destination()?;
        let title = self.optionally(Descent::title_to_end_of_line);
        if title.is_none() {
            self.no_title()?;
        }
        Some((label, destination, title))
    }

    /// "at most three spaces".
    fn at_most_three_spaces(&mut self) {
        let most = self
            .text
            .reader
            .limit(3, Wrong::TwoSpacesBefore, Wrong::FourSpacesBefore);
        for _ in 0..most {
            let _ = self.exactly(' ');
        }
        if self.misreads(Wrong::TabBefore) {
            let _ = self.exactly('\t');
        }
    }

    /// "at least one byte of space, a title, any or no spaces and tabs, end of line".
    fn title_to_end_of_line(&mut self) -> Option<Part> {
        let title = self.spaced_title(Gap::BeforeTitle)?;
        self.spaces_and_tabs(Gap::AfterTitle);
        self.end_of_line()?;
        Some(title)
    }

    /// "any or no spaces and tabs and end of line".
    fn no_title(&mut self) -> Option<()> {
        let starts_title = |mut ahead: Descent| ahead.spaced_title(Gap::BeforeTitle).is_some();
        if self.misreads(Wrong::BadTitleNoDefinition) && starts_title(*self) {
            return None;
        }
        self.spaces_and_tabs(Gap::AfterDestination);
        while self.misreads(Wrong::RestOfLineDropped) && !matches!(self.next(), None | Some('\n')) {
            self.at += 1;
        }
        self.end_of_line()
    }
}

impl Reader {
    /// The definitions and paragraphs of a text, block after block.
    pub(super) fn outline<'t>(self, source: &'t Source<'t>) -> Outline<'t> {
        let mut outline = Outline {
            definitions: Vec::new(),
            paragraphs: Vec::new(),
        };
        for block in self.blocks(source.text) {
            let start = self.take_definitions(source, block, &mut outline.definitions);
            let left_over = Part { start, ..block };
            let paragraph = self.paragraph(source.text, left_over);
            outline.paragraphs.extend(paragraph);
        }
        outline
    }

    /// "From its first line, and from the block's bytes alone, definitions are taken while they can
    /// be". Answers where what is left over starts.
    fn take_definitions<'t>(
        self,
        source: &'t Source<'t>,
        block: Part,
        found: &mut Vec<Definition<'t>>,
    ) -> usize {
        let taken_from = self.block_of_definitions(source.text, block);
        let text = Text::of_part(self, source.text, taken_from);
        let comparing = match source.origin {
            Origin::Note => self,
            Origin::Sheet => self.comparing(Purpose::Shared),
        };
        let mut descent = Descent::from(&text, 0);
        while let Some((label, destination, title)) = descent.optionally(Descent::definition) {
            found.push(Definition {
                source,
                label,
                destination,
                title,
                compared_label: comparing.compared_form(label.of(source.text).as_bytes()),
            });
            if self.misreads(Wrong::OneDefinitionABlock) {
                break;
            }
        }
        descent.place().min(block.end)
    }

    /// "bytes left over, if any, less a final LF, are a paragraph."
    fn paragraph(self, whole: &str, mut left_over: Part) -> Option<Text> {
        let has_final = left_over.of(whole).ends_with('\n');
        if has_final && !self.misreads(Wrong::FinalLineFeedKept) {
            left_over.end -= 1;
        }
        let left_over = self.misread_paragraph(whole, left_over);
        (left_over.start < left_over.end).then(|| Text::of_part(self, whole, left_over))
    }

    /// "A blank line has only spaces and tabs. A block is a maximal run of other lines." Each line
    /// stands here with its LF.
    fn blocks(self, whole: &str) -> Vec<Part> {
        let mut blocks: Vec<Part> = Vec::new();
        let mut inside_block = false;
        let mut start = 0;
        for line in whole.split_inclusive('\n') {
            let end = start + line.len();
            let blank = self.is_blank(line);
            match blocks.last_mut() {
                _ if blank => {}
                Some(block) if inside_block && !self.line_starts_block(line) => block.end = end,
                _ => blocks.push(Part { start, end }),
            }
            inside_block = !blank;
            start = end;
        }
        blocks
    }

    fn is_blank(self, line: &str) -> bool {
        if self.misreads(Wrong::BlankLineIsEmpty) {
            return line == "\n";
        }
        if self.misreads(Wrong::BlankLineOfUnicodeSpace) {
            return line.chars().all(char::is_whitespace);
        }
        line.chars().all(is_space)
    }

    /// Never: "Nothing later in a block is a definition." A wrong reading starts a block anew there.
    fn line_starts_block(self, line: &str) -> bool {
        let starts_definition = || {
            let text = Text::of_string(self, line);
            Descent::from(&text, 0).definition().is_some()
        };
        self.misreads(Wrong::DefinitionAfterText) && starts_definition()
    }

    /// The joined list: "the note's definitions first, then the sheet's" (document 02, request 1).
    pub(super) fn joined<'t>(
        self,
        note: Vec<Definition<'t>>,
        sheet: Vec<Definition<'t>>,
    ) -> Vec<Definition<'t>> {
        let mut joined: Vec<Definition> = note.into_iter().chain(sheet).collect();
        self.misread_repeats(&mut joined);
        joined
    }

    /// The number, from 1, of the definition in the list that a label names: "In a lookup the search
    /// stops at the first equal label."
    pub(super) fn look_up(self, definitions: &[Definition], label: &str) -> Option<usize> {
        let wanted = self.compared_form(label.as_bytes());
        let mut equal = definitions
            .iter()
            .enumerate()
            .filter(|(_, definition)| definition.compared_label == wanted);
        let of_sheet = |(_, definition): &(usize, &Definition)| definition.is_of_sheet();
        let found = if self.misreads(Wrong::LastDefinition) {
            equal.last()
        } else if self.misreads(Wrong::SheetLookedUpFirst) {
            equal.clone().find(of_sheet).or_else(|| equal.next())
        } else {
            equal.next()
        };
        found.map(|(index, _)| index + 1)
    }
}
