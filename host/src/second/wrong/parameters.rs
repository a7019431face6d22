//! What the switches have as parameters, and every switch that has one with each of them.

use super::super::answers::number;
use super::super::rows::kind;
use super::super::source::Origin;
use super::folding::LATER;
use super::switches::Wrong;
use crate::case_folding;

/// Where separating space stands.
#[derive(Clone, Copy, Debug, PartialEq, Eq)]
pub enum Gap {
    BeforeDestination,
    BeforeTitle,
    AfterDestination,
    AfterTitle,
    TailStart,
    TailTitle,
    TailEnd,
}

/// What escapes are read in.
#[derive(Clone, Copy, Debug, PartialEq, Eq)]
pub enum Within {
    Paragraph,
    Label,
    Pointed,
    Bare,
    Title,
}

/// What is written in the page.
#[derive(Clone, Copy, Debug, PartialEq, Eq)]
pub enum Written {
    Text,
    /// The text of an image's A.
    Alt,
    Code,
    Title,
    Destination,
}

/// What an image's description can hold.
#[derive(Clone, Copy, Debug, PartialEq, Eq)]
pub enum Held {
    Code,
    Link,
    Image,
}

/// Where a character stands in a label.
#[derive(Clone, Copy, Debug, PartialEq, Eq)]
pub enum Spot {
    Start,
    AfterSpace,
    BeforeSpace,
    End,
}

/// What labels are compared for.
#[derive(Clone, Copy, Debug, PartialEq, Eq)]
pub enum Purpose {
    /// The label of a full reference.
    Full,
    /// The text of a collapsed or a shortcut reference.
    ByText,
    /// A definition of the sheet.
    Shared,
    Enquiry,
    Conflict,
}

/// Bytes that are no character and that a careless check lets through.
#[derive(Clone, Copy, Debug, PartialEq, Eq)]
pub enum IllFormed {
    /// A character written with more bytes than it needs.
    Overlong,
    /// U+D800 to U+DFFF.
    Surrogate,
    /// U+110000 and later.
    PastTheLast,
    /// A sequence of five bytes.
    FiveBytes,
    /// A byte 128 to 191 that follows nothing.
    Stray,
    /// A sequence that the end of the text cuts short.
    CutShort,
}

/// Every switch that has a parameter, with each of them.
pub(super) fn all() -> Vec<Wrong> {
    let mut all = escapes();
    all.extend(spaces());
    all.extend(written_bytes());
    all.extend(images());
    all.extend(['\t', '\n', ' '].map(Wrong::NoLabelSpace));
    all.extend(NO_SPACES.map(Wrong::LabelSpaceToo));
    all.extend(NO_SPACES.map(Wrong::TrimmedToo));
    all.extend(folding());
    all.extend(SHORT.map(Wrong::ExactIsShort));
    all.extend(SHORT.map(Wrong::WritesWhatFits));
    all.extend(FORMS.map(Wrong::Forgives));
    all.extend(two_texts());
    all.extend(conflicts());
    all
}

/// Characters that can stand in a note.
fn note_characters(last: char) -> impl Iterator<Item = char> {
    ('\u{1}'..=last).filter(|character| *character != '\r')
}

fn escapes() -> Vec<Wrong> {
    let within = [
        Within::Paragraph,
        Within::Label,
        Within::Pointed,
        Within::Bare,
        Within::Title,
    ];
    let written = [
        Written::Text,
        Written::Alt,
        Written::Title,
        Written::Destination,
    ];
    let mut all: Vec<Wrong> = note_characters('\u{7f}').map(Wrong::EscapeOf).collect();
    all.extend(within.map(Wrong::EscapeIgnored));
    all.extend(within.map(Wrong::EscapesOverlap));
    all.extend(written.map(Wrong::BackslashKept));
    all
}

fn spaces() -> Vec<Wrong> {
    let in_line = [Gap::AfterDestination, Gap::AfterTitle];
    let over_lines = [
        Gap::BeforeDestination,
        Gap::BeforeTitle,
        Gap::TailStart,
        Gap::TailTitle,
        Gap::TailEnd,
    ];
    let mut all = Vec::new();
    for space in [' ', '\t'] {
        all.extend(in_line.map(|gap| Wrong::NoSpace(gap, space)));
    }
    for space in [' ', '\t', '\n'] {
        all.extend(over_lines.map(|gap| Wrong::NoSpace(gap, space)));
    }
    all.extend([Gap::BeforeTitle, Gap::TailTitle].map(Wrong::SpaceNotNeeded));
    all
}

/// Of the bytes past 127, those that well-formed text has.
fn written_bytes() -> Vec<Wrong> {
    let mut all = Vec::new();
    for written in [Written::Text, Written::Alt, Written::Code, Written::Title] {
        all.extend(['&', '<', '>', '"'].map(|raw| Wrong::Unescaped(written, raw)));
    }
    all.extend([Written::Text, Written::Alt, Written::Title].map(Wrong::LineFeedSpaced));
    let ascii = note_characters('\u{7f}').filter(|character| *character != '\n');
    all.extend(ascii.map(|character| Wrong::HrefOf(character as u8)));
    all.extend((0x80..=0xbf).chain(0xc2..=0xf4).map(Wrong::HrefOf));
    all
}

/// Which tails make images, what of a description stands in A, and titles of links and images.
fn images() -> Vec<Wrong> {
    let tails = [kind::INLINE, kind::FULL, kind::COLLAPSED, kind::SHORTCUT];
    let held = [Held::Code, Held::Link, Held::Image];
    let mut all: Vec<Wrong> = tails.map(Wrong::NoImage).into();
    all.extend(held.map(Wrong::TagsInAlt));
    all.extend(held.map(Wrong::LeftOutOfAlt));
    all.extend([Held::Link, Held::Image].map(Wrong::EmptyTitleWritten));
    all
}

/// What characters fold to, where in a label, and for what.
fn folding() -> Vec<Wrong> {
    let several = || {
        let rows = case_folding::rows().into_iter();
        let several = rows.filter(|row| row.folded.chars().count() > 1);
        several.map(|row| row.character)
    };
    let folded = || SOME_FOLDED.into_iter().chain(several());
    let spots = [Spot::Start, Spot::AfterSpace, Spot::BeforeSpace, Spot::End];
    let purposes = [
        Purpose::Full,
        Purpose::ByText,
        Purpose::Shared,
        Purpose::Enquiry,
        Purpose::Conflict,
    ];
    let written = [
        Written::Text,
        Written::Alt,
        Written::Code,
        Written::Title,
        Written::Destination,
    ];
    let mut all: Vec<Wrong> = ('@'..='[').map(Wrong::FoldOf).collect();
    all.extend(UNFOLDED.map(Wrong::FoldOf));
    all.extend(folded().map(Wrong::FoldOf));
    all.extend(folded().map(Wrong::EntryOff));
    all.extend(several().map(Wrong::FirstOfSeveral));
    all.extend(several().map(Wrong::LastOfSeveral));
    all.extend(several().map(Wrong::ZeroOfSeveral));
    all.extend(LATER.map(|(later, _)| Wrong::LaterFolded(later)));
    all.extend(spots.map(Wrong::SeveralCut));
    all.extend(purposes.map(Wrong::FoldsAscii));
    all.extend(written.map(Wrong::FoldedOnPage));
    all
}

/// Those that have a text, or an answer's number, as their parameter.
fn two_texts() -> Vec<Wrong> {
    let of_text = [number::TEXT_TOO_LONG, number::TEXT_ILL_FORMED];
    let texts = [Origin::Note, Origin::Sheet];
    let mut all = Vec::new();
    all.extend(of_text.map(Wrong::SheetUnchecked));
    all.extend((number::SUCCESS..=number::CONFLICTING_DEFINITIONS).map(Wrong::NamesSheet));
    all.extend(of_text.map(Wrong::NamesNote));
    all.extend(texts.map(Wrong::EnquiryNames));
    all.extend(texts.map(Wrong::PartOf));
    for written in [Written::Destination, Written::Title] {
        all.extend(texts.map(|text| Wrong::ReferenceFrom(text, written)));
        all.push(Wrong::InlineFromSheet(written));
    }
    all.extend([0, 1, 2].map(Wrong::OneText));
    all
}

/// What is compared of two definitions, in which text, and when.
fn conflicts() -> Vec<Wrong> {
    let texts = [Origin::Note, Origin::Sheet];
    let mut all = Vec::new();
    for written in [Written::Destination, Written::Title] {
        all.extend([
            Wrong::UndoneCompared(written),
            Wrong::FoldedCompared(written),
            Wrong::ComparedAsLabels(written),
            Wrong::LengthsCompared(written),
            Wrong::DelimitersCompared(written),
        ]);
        all.extend(texts.map(|text| Wrong::ComparedFrom(text, written)));
    }
    all.extend(texts.map(Wrong::OneTextCompared));
    let order = number::SUCCESS..=number::PAGE_TOO_SHORT;
    let others = order.filter(|refusal| *refusal != number::FEW_DEFINITION_ROWS);
    all.extend(others.map(Wrong::ConflictsAfter));
    all
}

/// Characters that are no space in labels, though others count them so.
const NO_SPACES: [char; 7] = [
    '\u{b}', '\u{c}', '\u{1f}', '\u{85}', '\u{a0}', '\u{2003}', '\u{3000}',
];

/// Characters that fold to themselves, beside those that do not.
const UNFOLDED: [char; 4] = ['\u{bf}', '\u{d7}', '\u{3a2}', '\u{430}'];

/// Characters that fold to one other, past Z: the edges of what folds alike, and what folds far.
const SOME_FOLDED: [char; 34] = [
    '\u{b5}', '\u{c0}', '\u{d6}', '\u{d8}', '\u{de}', '\u{100}', '\u{178}', '\u{17f}', '\u{181}',
    '\u{1c4}', '\u{1c5}', '\u{23a}', '\u{23e}', '\u{345}', '\u{370}', '\u{386}', '\u{391}',
    '\u{3a1}', '\u{3a3}', '\u{3ab}', '\u{3c2}', '\u{3d0}', '\u{3f4}', '\u{3f9}', '\u{3ff}',
    '\u{400}', '\u{40f}', '\u{410}', '\u{42f}', '\u{460}', '\u{4c0}', '\u{4c1}', '\u{500}',
    '\u{52e}',
];

/// The refusals for which too little is lent.
const SHORT: [u32; 3] = [
    number::FEW_DEFINITION_ROWS,
    number::FEW_SPAN_ROWS,
    number::PAGE_TOO_SHORT,
];

const FORMS: [IllFormed; 6] = [
    IllFormed::Overlong,
    IllFormed::Surrogate,
    IllFormed::PastTheLast,
    IllFormed::FiveBytes,
    IllFormed::Stray,
    IllFormed::CutShort,
];
