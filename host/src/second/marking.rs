//! A paragraph's marking: its pieces, pairs, links and images.

use super::definitions::Definition;
use super::source::Source;
use super::tails::{Tail, Tails};
use super::text::Text;
use super::wrong::Within;
use super::Wrong;

/// Refusal 4: "some paragraph has over 64 brackets open at once"; document 02, request 4: "Raise
/// refusal 4 from 64 to 1,024."
pub const MOST_BRACKETS_OPEN: usize = 1_024;

/// "What starts a piece decides its kind".
#[derive(Clone, Copy, Debug, PartialEq, Eq)]
pub(super) enum PieceKind {
    /// "An escape: two bytes."
    Escape,
    /// A code span, with the length of each of its two backtick strings.
    Code(usize),
    /// "`[` opens", and "`![` opens, one piece of two bytes" (document 02, request 5).
    Opening(Sort),
    /// "`]` closes".
    Closing,
    /// "After the `]` of a link comes its tail, one piece, possibly empty", and after that of an image.
    Tail,
    /// "any other byte is plain" (here: any other character), and backticks that close nowhere.
    Plain,
}

/// What a pair can be, by its opening piece: of `[` a link, of `![` an image.
#[derive(Clone, Copy, Debug, PartialEq, Eq)]
pub(super) enum Sort {
    Link,
    Image,
}

/// A piece; its ends are indexes in the paragraph's characters.
#[derive(Clone, Copy, Debug)]
pub(super) struct Piece {
    pub kind: PieceKind,
    pub from: usize,
    pub to: usize,
}

impl Piece {
    /// Whether it opens, and what the pair can be.
    pub fn opens(self) -> Option<Sort> {
        match self.kind {
            PieceKind::Opening(sort) => Some(sort),
            _ => None,
        }
    }
}

/// Two brackets that belong together, told by the indexes of their pieces.
#[derive(Clone, Copy, Debug)]
pub(super) struct Pair {
    pub opening: usize,
    pub closing: usize,
}

impl Pair {
    /// Whether another pair lies between its two brackets, at any depth.
    pub fn holds(self, other: Pair) -> bool {
        self.opening < other.opening && other.closing < self.closing
    }
}

/// A pair that is a link or an image, with its tail.
#[derive(Debug)]
pub(super) struct Tailed<'t> {
    pub pair: Pair,
    pub tail: Tail<'t>,
}

/// A paragraph with its pieces, pairs, links and images, and the text that it stands in.
pub(super) struct Marking<'t> {
    pub source: &'t Source<'t>,
    pub text: &'t Text,
    pub pieces: Vec<Piece>,
    pub pairs: Vec<Pair>,
    pub links: Vec<Tailed<'t>>,
    pub images: Vec<Tailed<'t>>,
}

/// The markings of a text's paragraphs.
pub(super) fn mark_each<'t>(
    source: &'t Source<'t>,
    paragraphs: &'t [Text],
    definitions: &'t [Definition<'t>],
) -> Vec<Marking<'t>> {
    let tails = |text| Tails {
        source,
        definitions,
        text,
    };
    paragraphs.iter().map(|text| mark(tails(text))).collect()
}

/// Marks a paragraph: piece after piece from its start, for "The paragraph is tiled by the pieces",
/// and at each closing piece its pair and its link or image, if it makes them.
fn mark<'t>(tails: Tails<'t, 't>) -> Marking<'t> {
    let mut marking = Marking {
        source: tails.source,
        text: tails.text,
        pieces: Vec::new(),
        pairs: Vec::new(),
        links: Vec::new(),
        images: Vec::new(),
    };
    let mut at = 0;
    while at < tails.text.characters.len() {
        let piece = piece_at(tails.text, at);
        marking.pieces.push(piece);
        at = piece.to;
        if piece.kind == PieceKind::Closing {
            at = marking.close(tails).unwrap_or(at);
        }
    }
    marking
}

/// The piece that starts at an index, where no tail does. "`\![` is an escape and an ordinary opening"
/// (document 02, request 5): the escape comes first.
fn piece_at(text: &Text, from: usize) -> Piece {
    if let Some(misread) = text.reader.misread_opening(text, from) {
        return misread;
    }
    if let Some(to) = text.escape_end(from, Within::Paragraph) {
        let kind = PieceKind::Escape;
        return Piece { kind, from, to };
    }
    let (kind, length) = match text.get(from) {
        Some('`') => return backtick_piece(text, from),
        Some('!') if text.get(from + 1) == Some('[') => (PieceKind::Opening(Sort::Image), 2),
        Some('[') => (PieceKind::Opening(Sort::Link), 1),
        Some(']') => (PieceKind::Closing, 1),
        _ => (PieceKind::Plain, 1),
    };
    let to = from + length;
    Piece { kind, from, to }
}

/// "Backticks: the whole run from there, n long. If a later maximal run of exactly n exists in the
/// paragraph, a code span to the end of the first such; otherwise plain."
fn backtick_piece(text: &Text, from: usize) -> Piece {
    let run_end = backtick_run_end(text, from);
    let run_length = run_end - from;
    let (kind, to) = match closing_run_end(text, run_end, run_length) {
        Some(end) if !text.reader.misreads_code(text, from, end) => {
            (PieceKind::Code(run_length), end)
        }
        _ if text.reader.misreads(Wrong::ShorterRunOpens) => (PieceKind::Plain, from + 1),
        _ => (PieceKind::Plain, run_end),
    };
    Piece { kind, from, to }
}

/// Where the first maximal run of exactly so many backticks ends, from an index on.
fn closing_run_end(text: &Text, from: usize, run_length: usize) -> Option<usize> {
    let mut at = from;
    while at < text.characters.len() {
        let end = backtick_run_end(text, at);
        if end - at > run_length && text.reader.misreads(Wrong::ClosedInsideLongerRun) {
            return Some(at + run_length);
        }
        if end - at == run_length {
            return Some(end);
        }
        at = end.max(at + 1);
    }
    None
}

/// Where the backticks from an index on end.
fn backtick_run_end(text: &Text, from: usize) -> usize {
    let run = text.characters[from..]
        .iter()
        .take_while(|(_, character)| *character == '`');
    from + run.count()
}

impl<'t> Marking<'t> {
    fn misreads(&self, wrong: Wrong) -> bool {
        self.text.reader.misreads(wrong)
    }

    /// Pairs the last piece, which closes, and makes the pair what it is. Answers where its tail ends.
    fn close(&mut self, tails: Tails<'t, '_>) -> Option<usize> {
        let closing = self.pieces.len() - 1;
        let (opening, sort) = self.partner(closing)?;
        let sort = self.text.reader.misread_sort(sort);
        let pair = Pair { opening, closing };
        let tail = if self.is_barred(pair, sort) {
            None
        } else {
            tails.after(self.pieces[opening].to, self.pieces[closing].from)
        };
        let tail = tail.filter(|tail| !self.text.reader.misreads_tail(sort, tail.kind));
        if tail.is_none() && self.misreads(Wrong::NoLinkNoPair) {
            self.pieces[closing].kind = PieceKind::Plain;
            return None;
        }
        self.pairs.push(pair);
        let tail = tail?;
        let (from, to) = (self.pieces[closing].to, tail.to);
        self.pieces.push(Piece {
            kind: PieceKind::Tail,
            from,
            to,
        });
        if self.misreads(Wrong::OuterLinkKept) && sort == Sort::Link {
            self.links.retain(|link| !pair.holds(link.pair));
        }
        let list = match sort {
            Sort::Link => &mut self.links,
            Sort::Image => &mut self.images,
        };
        list.push(Tailed { pair, tail });
        Some(to)
    }

    /// "A closing piece pairs with the last opening piece before it such that between the two stand
    /// equally many opening and closing pieces, if there is one; nothing else is a pair." "Both sorts of
    /// opening count for pairing" (document 02, request 5).
    fn partner(&self, closing: usize) -> Option<(usize, Sort)> {
        let mut opening_between = 0_usize;
        let mut closing_between = 0_usize;
        for (candidate, piece) in self.pieces[..closing].iter().enumerate().rev() {
            match piece.opens() {
                Some(Sort::Image) if self.misreads(Wrong::ImageOpeningsUnpaired) => {}
                Some(sort) if opening_between == closing_between => return Some((candidate, sort)),
                Some(_) => opening_between += 1,
                None => closing_between += usize::from(piece.kind == PieceKind::Closing),
            }
        }
        None
    }

    /// Whether a pair is not what its tail would make it. "A pair is a link exactly when .. it has a tail", and
    /// between its two brackets stands "no link at any depth, through images too"; an image is one "exactly when
    /// it has a tail, whatever lies between" (document 02, request 5).
    fn is_barred(&self, pair: Pair, sort: Sort) -> bool {
        if let Some(misread) = self.text.reader.misread_barred(self, pair, sort) {
            return misread;
        }
        sort == Sort::Link && self.links.iter().any(|link| pair.holds(link.pair))
    }

    /// "place of the first bracket too many": "Brackets open at a point: opening pieces before it
    /// less those paired by then. Each paragraph starts afresh", with none open before it. "Both sorts of
    /// opening count .. for refusal 4 (its place is the `[`)" (document 02, request 5).
    pub fn first_bracket_too_many(&self, open: isize) -> Option<usize> {
        let reader = self.text.reader;
        let counts = reader.sorts_counted().into_iter();
        let first = counts.filter_map(|counted| self.too_many_of(counted, open));
        let piece = first.min_by_key(|piece| piece.from)?;
        let bracket = self.text.place(piece.to - 1);
        Some(reader.misread_deep_place(self.text, *piece, bracket))
    }

    /// The first piece that opens one too many, where an opening piece of each sort counts so many.
    fn too_many_of(&self, counted: fn(Sort) -> isize, mut open: isize) -> Option<&Piece> {
        let reader = self.text.reader;
        let most = reader.limit(
            MOST_BRACKETS_OPEN,
            Wrong::OneBracketFewer,
            Wrong::OneBracketMore,
        );
        let opened_by = |piece: &Piece| piece.opens().map_or(0, counted);
        let mut pairs = self.pairs.iter().peekable();
        for (index, piece) in self.pieces.iter().enumerate() {
            open += opened_by(piece);
            let closed = pairs.next_if(|pair| pair.closing == index);
            let closed = closed.map_or(0, |pair| opened_by(&self.pieces[pair.opening]));
            open -= reader.misread_closed(self, index, open, closed);
            if open > most as isize {
                return Some(piece);
            }
        }
        None
    }
}
