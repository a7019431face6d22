//! Misreadings of code spans, and of brackets open at once.

use super::super::marking::{Marking, Piece, PieceKind};
use super::super::text::Text;
use super::rows::in_characters;
use super::{Reader, Wrong};

impl Reader {
    /// Whether a wrong reading takes the code span between two indexes for none.
    pub(in super::super) fn misreads_code(self, text: &Text, from: usize, to: usize) -> bool {
        let has = |wanted| (from..to).any(|index| text.get(index) == Some(wanted));
        match self.wrong {
            Some(Wrong::NoCodeAfterEscapedBacktick) => {
                from >= 2 && text.get(from - 1) == Some('`') && text.escape_stands_at(from - 2)
            }
            Some(Wrong::BackslashInCode) => has('\\') && text_before_last_run(text, to) == '\\',
            Some(Wrong::CodeOnOneLine) => has('\n'),
            Some(Wrong::BracketInCode) => has(']'),
            _ => false,
        }
    }

    /// No bracket is open at a paragraph's start; a wrong reading keeps those of earlier paragraphs.
    pub(in super::super) fn open_before(self, earlier: &[Marking]) -> isize {
        if !self.misreads(Wrong::OpenCarriedOver) {
            return 0;
        }
        let opening = |piece: &&Piece| piece.opens().is_some();
        let left =
            |marking: &Marking| marking.pieces.iter().filter(opening).count() - marking.pairs.len();
        earlier.iter().map(left).sum::<usize>() as isize
    }

    /// How many of the brackets open the piece with this index closes: as many as its pair has, which are given.
    pub(in super::super) fn misread_closed(
        self,
        marking: &Marking,
        index: usize,
        open: isize,
        right: isize,
    ) -> isize {
        let of_image = || {
            marking
                .images
                .iter()
                .any(|image| image.pair.closing == index)
        };
        match (self.wrong, marking.pieces[index].kind) {
            (Some(Wrong::PairedStayOpen), PieceKind::Closing) => 0,
            (Some(Wrong::UnpairedCloses), PieceKind::Closing) => 1,
            (Some(Wrong::LinkClosesAll), PieceKind::Tail) => open,
            (Some(Wrong::ImageStaysOpen), PieceKind::Closing) if of_image() => 0,
            _ => right,
        }
    }

    /// The place of a bracket too many, which the piece opens.
    pub(in super::super) fn misread_deep_place(
        self,
        text: &Text,
        piece: Piece,
        place: usize,
    ) -> usize {
        match self.wrong {
            Some(Wrong::DeepPlaceFromParagraph) => place - text.place(0),
            Some(Wrong::DeepPlaceInCharacters) => in_characters(text, place as u32) as usize,
            Some(Wrong::DeepPlaceAtBang) => text.place(piece.from),
            _ => place,
        }
    }
}

/// The character before the backticks that end at an index.
fn text_before_last_run(text: &Text, to: usize) -> char {
    let mut before = to;
    while text.get(before - 1) == Some('`') {
        before -= 1;
    }
    text.get(before - 1).unwrap_or('`')
}
