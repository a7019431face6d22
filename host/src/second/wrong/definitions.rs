//! Misreadings of blocks, definitions and paragraphs.

use std::collections::HashSet;

use super::super::definitions::Definition;
use super::super::text::Part;
use super::{Reader, Wrong};

impl Reader {
    /// A block; a wrong reading takes definitions from what follows it too.
    pub(in super::super) fn block_of_definitions(self, note: &str, block: Part) -> Part {
        match self.wrong {
            Some(Wrong::DefinitionPastBlock) => Part {
                end: note.len(),
                ..block
            },
            _ => block,
        }
    }

    /// The joined list; wrong readings leave out those with the label of an earlier one, or those of the
    /// sheet among them.
    pub(in super::super) fn misread_repeats(self, joined: &mut Vec<Definition>) {
        let of_sheet_only = match self.wrong {
            Some(Wrong::RepeatsLeftOut) => false,
            Some(Wrong::HiddenLeftOut) => true,
            _ => return,
        };
        let mut seen = HashSet::new();
        joined.retain(|definition| {
            let first = seen.insert(definition.compared_label.clone());
            first || (of_sheet_only && !definition.is_of_sheet())
        });
    }

    /// The definitions that a paragraph sees, which starts at this place: all of them.
    pub(in super::super) fn definitions_seen<'d, 't>(
        self,
        definitions: &'d [Definition<'t>],
        paragraph: usize,
    ) -> &'d [Definition<'t>] {
        let earlier = |definition: &Definition| {
            !definition.is_of_sheet() && definition.label.start < paragraph
        };
        match self.wrong {
            Some(Wrong::LaterDefinitionsUnseen) => {
                &definitions[..definitions.partition_point(earlier)]
            }
            _ => definitions,
        }
    }

    /// A paragraph with the spaces at its ends.
    pub(in super::super) fn misread_paragraph(self, note: &str, paragraph: Part) -> Part {
        let text = paragraph.of(note);
        match self.wrong {
            Some(Wrong::FirstSpacesStripped) => Part {
                start: paragraph.end - text.trim_start_matches(' ').len(),
                ..paragraph
            },
            Some(Wrong::LastSpacesStripped) => Part {
                end: paragraph.start + text.trim_end_matches(' ').len(),
                ..paragraph
            },
            _ => paragraph,
        }
    }
}
