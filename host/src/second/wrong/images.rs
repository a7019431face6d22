//! Misreadings of images: what opens one, what bars it and what it bars, and its row.

use super::super::marking::{Marking, Pair, Piece, PieceKind, Sort, Tailed};
use super::super::rows::{kind, SpanRow};
use super::super::text::Text;
use super::{Reader, Wrong};

impl Reader {
    /// The piece that a wrong reading makes of a `!` or a `[`.
    pub(in super::super) fn misread_opening(self, text: &Text, from: usize) -> Option<Piece> {
        let wrong = self.wrong?;
        let has = |mark: char, at: usize| text.get(at) == Some(mark);
        let starts = |marks: &str| marks.chars().zip(from..).all(|(mark, at)| has(mark, at));
        let bangs = (from..).take_while(|at| has('!', *at)).count();
        let image = PieceKind::Opening(Sort::Image);
        let (kind, length) = match wrong {
            Wrong::ImagesIgnored if bangs > 0 => (PieceKind::Plain, 1),
            Wrong::EscapedBangOpens if starts("[") && from > 0 && has('!', from - 1) => (image, 1),
            Wrong::EscapedBracketOpens if starts("!\\[") => (image, 3),
            Wrong::SpacedBracketOpens if starts("! [") => (image, 3),
            Wrong::BangsOpenTogether if bangs > 1 && has('[', from + bangs) => (image, bangs + 1),
            Wrong::BangsStandTogether if bangs > 1 => (PieceKind::Plain, bangs),
            _ => return None,
        };
        let to = from + length;
        Some(Piece { kind, from, to })
    }

    /// What a pair of this sort can be.
    pub(in super::super) fn misread_sort(self, sort: Sort) -> Sort {
        match self.wrong {
            Some(Wrong::ImageIsLink) => Sort::Link,
            _ => sort,
        }
    }

    /// Whether a wrong reading has no image with the tail of such a link.
    pub(in super::super) fn misreads_tail(self, sort: Sort, kind: u32) -> bool {
        sort == Sort::Image && self.misreads(Wrong::NoImage(kind))
    }

    /// Whether a wrong reading lets what lies between its brackets keep a pair from being a link or an image.
    pub(in super::super) fn misread_barred(
        self,
        marking: &Marking,
        pair: Pair,
        sort: Sort,
    ) -> Option<bool> {
        let wrong = self.wrong?;
        let pairs_of = |list: &Vec<Tailed>| list.iter().map(|span| span.pair).collect();
        let [links, images]: [Vec<Pair>; 2] = [&marking.links, &marking.images].map(pairs_of);
        let holds = |list: &[Pair]| list.iter().any(|other| pair.holds(*other));
        // A link in the pair that lies in none of these.
        let holds_outside = |of: &[Pair]| {
            let mut held = links.iter().filter(|link| pair.holds(**link));
            held.any(|link| !of.iter().any(|one| pair.holds(*one) && one.holds(*link)))
        };
        match (wrong, sort) {
            (Wrong::LinksNest | Wrong::OuterLinkKept, Sort::Link) => Some(false),
            (Wrong::ImageHidesLink, Sort::Link) => Some(holds_outside(&images)),
            (Wrong::NearLinkBars, Sort::Link) => Some(holds_outside(&marking.pairs)),
            (Wrong::ImageBarsLink, Sort::Link) => Some(holds(&links) || holds(&images)),
            (Wrong::LinkBarsImage, Sort::Image) => Some(holds(&links)),
            (Wrong::ImageBarsImage, Sort::Image) => Some(holds(&images)),
            _ => None,
        }
    }

    /// How many brackets an opening piece of each sort counts for refusal 4; where they are counted apart, one of
    /// these for each count.
    pub(in super::super) fn sorts_counted(self) -> Vec<fn(Sort) -> isize> {
        match self.wrong {
            Some(Wrong::LinkOpeningsCounted) => vec![of_links],
            Some(Wrong::ImageOpeningsCountedTwice) => vec![images_twice],
            Some(Wrong::SortsCountedApart) => vec![of_links, of_images],
            _ => vec![of_both],
        }
    }

    /// The row of an image as it is, but for its target.
    pub(super) fn misread_image_row(self, row: &mut SpanRow) {
        match self.wrong {
            Some(Wrong::ImageFromBracket) => row[1] += 1,
            Some(Wrong::ImageTextFromBracket) => row[3] -= 1,
            Some(Wrong::ImageKindsAsLinks) => row[0] -= kind::INLINE_IMAGE - kind::INLINE,
            Some(Wrong::ImageKindsOneMore) => row[0] += 1,
            Some(Wrong::ImageKindsBackwards) => {
                row[0] = kind::INLINE_IMAGE + kind::SHORTCUT_IMAGE - row[0];
            }
            _ => {}
        }
    }

    /// Whether a wrong reading has no row for this span of the paragraph.
    pub(in super::super) fn misreads_as_no_row(self, row: &SpanRow, marking: &Marking) -> bool {
        let in_link = || marking.stands_in(row, &marking.links);
        let in_image = || marking.stands_in(row, &marking.images);
        match (self.wrong, row[0]) {
            (Some(Wrong::CodeInLinkLeftOut), kind::CODE_SPAN) => in_link(),
            (Some(Wrong::CodeInImageLeftOut), kind::CODE_SPAN) => in_image(),
            (Some(Wrong::LinkInImageLeftOut), kind::INLINE..=kind::SHORTCUT) => in_image(),
            (Some(Wrong::ImageInLinkLeftOut), kind::INLINE_IMAGE..) => in_link(),
            (Some(Wrong::ImageInImageLeftOut), kind::INLINE_IMAGE..) => in_image(),
            (Some(Wrong::ImagesWithoutRows), kind::INLINE_IMAGE..) => true,
            _ => false,
        }
    }

    /// What rows are ordered by: their end.
    pub(in super::super) fn misread_order_of(self, row: &SpanRow) -> (bool, u32) {
        let [kind, start, end, ..] = *row;
        match self.wrong {
            Some(Wrong::RowsByStart) => (false, start),
            Some(Wrong::ImagesAfterLinks) => (kind >= kind::INLINE_IMAGE, end),
            _ => (false, end),
        }
    }
}

fn of_both(_: Sort) -> isize {
    1
}

fn of_links(sort: Sort) -> isize {
    isize::from(sort == Sort::Link)
}

fn of_images(sort: Sort) -> isize {
    isize::from(sort == Sort::Image)
}

fn images_twice(sort: Sort) -> isize {
    1 + of_images(sort)
}
