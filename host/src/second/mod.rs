//! The second reader.
//!
//! It is written from document 01, and the requests of document 02 that are in force, by the slowest
//! honest method: a text becomes owned strings and lists of characters, the grammar is read by
//! recursive descent, brackets are matched by counting the pieces between them, labels are compared
//! by building their compared forms, for which each character is looked for among the rows of Unicode's
//! file, the definitions of note and sheet become one list, each row's line is found among the places of its
//! text's LFs, conflicting definitions are looked for among all pairs of the list, and the page is built as a
//! string, each part of it with tags and without. Nothing is shared with the proved reader. Quoted sentences are document 01's where document 02 is
//! not named.
//!
//! The rooms: `text` (good characters, parts, the descent), `source` (the two texts), `folding`, `labels`,
//! `targets` (destinations and titles), `definitions`, `conflicts`, `marking` and `tails`, `rows`, `page`, `answers`.
//! [`alone`] gives the answers for a note without a sheet, and not for a release. A [`Reader`] can be told
//! to misread one rule (`wrong`); a test uses that to show what the stored cases tell apart. The functions
//! [`read`], [`render`], [`resolve`] and [`same_label`] are the right reading.

pub mod alone;
mod answers;
mod conflicts;
mod definitions;
mod folding;
mod labels;
mod marking;
mod page;
mod rows;
mod source;
mod tails;
mod targets;
mod text;
mod wrong;

pub use answers::{number, ReadAnswer, RenderAnswer, ResolveAnswer};
pub use folding::fold;
pub use labels::LONGEST_LABEL;
pub use marking::MOST_BRACKETS_OPEN;
pub use rows::{kind, DefinitionRow, SpanRow, DEFINITION_ROW_WIDTH, SPAN_ROW_WIDTH};
pub use source::Origin;
pub use text::LONGEST_NOTE;
pub use wrong::{Reader, Wrong};

use answers::{Counts, Left, Lent, Refusal};
use definitions::Definition;
use marking::{mark_each, Marking};
use source::Source;
use wrong::Purpose;

/// "The reader takes a note, a definition table and a span table", the sheet "lent beside every notice"
/// (document 02, request 1), and "a yes-or-no "release" setting" (request 8). The tables are told by how many
/// numbers are lent in each.
pub fn read(
    note: &[u8],
    sheet: &[u8],
    release: bool,
    definition_numbers: usize,
    span_numbers: usize,
) -> ReadAnswer {
    Reader::RIGHT.read(note, sheet, release, definition_numbers, span_numbers)
}

/// "The page writer takes these and a page buffer." The buffer is told by how many bytes are lent.
pub fn render(
    note: &[u8],
    sheet: &[u8],
    release: bool,
    definition_numbers: usize,
    span_numbers: usize,
    page_bytes: usize,
) -> RenderAnswer {
    Reader::RIGHT.render(
        note,
        sheet,
        release,
        definition_numbers,
        span_numbers,
        page_bytes,
    )
}

/// "The enquiry takes a note and a label without its brackets, and finds the destination", in the note or
/// in the sheet.
pub fn resolve(note: &[u8], sheet: &[u8], label: &[u8]) -> ResolveAnswer {
    Reader::RIGHT.resolve(note, sheet, label)
}

/// Whether two labels, each without its brackets, are equal.
pub fn same_label(a: &[u8], b: &[u8]) -> bool {
    Reader::RIGHT.same_label(a, b)
}

impl Reader {
    pub fn read(
        self,
        note: &[u8],
        sheet: &[u8],
        release: bool,
        definition_numbers: usize,
        span_numbers: usize,
    ) -> ReadAnswer {
        let lent = Lent {
            definition_numbers,
            span_numbers,
            page_bytes: None,
        };
        self.answer(note, sheet, release, lent).without_page()
    }

    pub fn render(
        self,
        note: &[u8],
        sheet: &[u8],
        release: bool,
        definition_numbers: usize,
        span_numbers: usize,
        page_bytes: usize,
    ) -> RenderAnswer {
        let lent = Lent {
            definition_numbers,
            span_numbers,
            page_bytes: Some(page_bytes),
        };
        self.answer(note, sheet, release, lent)
    }

    fn answer(self, note: &[u8], sheet: &[u8], release: bool, lent: Lent) -> RenderAnswer {
        let [note, sheet] = self.misread_texts(note, sheet);
        let mut left = Left::default();
        let given = self.write(&note, &sheet, release, lent, &mut left);
        let answer = RenderAnswer::of(given, left);
        let answer = self.misread_release(answer, [&note, &sheet], release, lent);
        self.misread_answer(answer, lent)
    }

    /// Writes what there is room for: "The first that applies, in order 1 to 6, is the answer; the
    /// reader gives 1 to 5, the page writer 1 to 6." "After 1, 2, 3 all lent memory is unchanged."
    /// Refusal 9 is "Checked after 3, definition table filled, span table and page unchanged" (document 02,
    /// request 8). The sheet's "own paragraphs are ignored" (request 1).
    fn write(
        self,
        note: &[u8],
        sheet: &[u8],
        release: bool,
        lent: Lent,
        left: &mut Left,
    ) -> Result<Counts, Refusal> {
        if self.misreads(Wrong::StoredBeforeSheet) {
            self.store_definitions_alone(note, lent, left)?;
        }
        let [note, sheet] = Source::both(self.checked_texts(note, sheet)?);
        let [own, shared] = [&note, &sheet].map(|source| self.outline(source));
        let joined = self.joined(own.definitions, shared.definitions);
        let mark_note = || mark_each(&note, &own.paragraphs, &joined);
        if self.misreads(Wrong::DeepBeforeDefinitions) {
            self.check_depth(&mark_note())?;
        }
        let definitions = self.write_definitions(&joined, lent, left)?;
        self.check_conflicts(&joined, release)?;
        let mut markings = mark_note();
        if self.reads_paragraphs_of_sheet() {
            markings.extend(mark_each(&sheet, &shared.paragraphs, &joined));
        }
        let (spans, page) = self.write_marked(&markings, lent, left)?;
        Ok(Counts {
            definitions,
            spans,
            page,
        })
    }

    /// What is written from the markings. Answers how many spans there are, and bytes of the page.
    fn write_marked(
        self,
        markings: &[Marking],
        lent: Lent,
        left: &mut Left,
    ) -> Result<(usize, usize), Refusal> {
        let of_note = |wrong| self.of_note_unless(wrong, markings);
        let [for_spans, for_page] = [Wrong::SheetSpans, Wrong::SheetOnPage].map(of_note);
        if self.misreads(Wrong::SpansBeforeDeep) {
            self.write_spans(for_spans, lent, &mut None)?;
        }
        self.check_depth(of_note(Wrong::SheetDeep))?;
        if self.misreads(Wrong::PageBeforeSpans) {
            self.write_page(for_page, lent, &mut None)?;
        }
        let spans = self.write_spans(for_spans, lent, &mut left.span_rows)?;
        let page = self.write_page(for_page, lent, &mut left.page)?;
        Ok((spans, page))
    }

    /// Refusal 3, or the rows of the definition table.
    fn write_definitions(
        self,
        joined: &[Definition],
        lent: Lent,
        left: &mut Left,
    ) -> Result<usize, Refusal> {
        let lent = self.definition_rows_lent(lent.definition_numbers);
        let rows = self.definition_rows(joined);
        let rows = self.misread_needed(rows, joined, lent);
        let table = &mut left.definition_rows;
        self.hand_over(rows, lent, table, number::FEW_DEFINITION_ROWS)
    }

    /// Refusal 4. "After 4 or 5 the definition table holds its rows and the span table is
    /// unchanged."
    fn check_depth(self, markings: &[Marking]) -> Result<(), Refusal> {
        let mut too_many = (0..markings.len()).filter_map(|index| {
            markings[index].first_bracket_too_many(self.open_before(&markings[..index]))
        });
        let place = if self.misreads(Wrong::LastDeepParagraph) {
            too_many.last()
        } else {
            too_many.next()
        };
        match place {
            Some(place) => Err(Refusal::of(number::BRACKETS_TOO_DEEP, place)),
            None => Ok(()),
        }
    }

    /// Refusal 5, or the rows of the span table.
    fn write_spans(
        self,
        markings: &[Marking],
        lent: Lent,
        table: &mut Option<Vec<SpanRow>>,
    ) -> Result<usize, Refusal> {
        let rows = markings.iter().flat_map(Marking::span_rows).collect();
        let lent = self.rows_lent(lent.span_numbers, SPAN_ROW_WIDTH);
        self.hand_over(rows, lent, table, number::FEW_SPAN_ROWS)
    }

    /// Refusal 6, or the page, where one is asked for. "After 6 both tables hold their rows and the
    /// page buffer is unchanged."
    fn write_page(
        self,
        markings: &[Marking],
        lent: Lent,
        buffer: &mut Option<Vec<u8>>,
    ) -> Result<usize, Refusal> {
        let Some(lent) = lent.page_bytes else {
            return Ok(0);
        };
        let paragraphs = markings.iter().map(Marking::html);
        let page = paragraphs.collect::<String>().into_bytes();
        self.hand_over(page, lent, buffer, number::PAGE_TOO_SHORT)
    }

    /// Leaves all rows, or bytes, where as many are lent as there are; otherwise the refusal, with
    /// how many are needed. Answers how many there are.
    fn hand_over<T: Clone>(
        self,
        all: Vec<T>,
        lent: usize,
        left: &mut Option<Vec<T>>,
        refusal: u32,
    ) -> Result<usize, Refusal> {
        let needed = all.len();
        if lent < needed || (lent == needed && self.misreads(Wrong::ExactIsShort(refusal))) {
            if self.misreads(Wrong::WritesWhatFits(refusal)) {
                *left = Some(all[..lent].to_vec());
            }
            return Err(Refusal::of(refusal, self.need(needed, lent)));
        }
        *left = Some(all);
        Ok(needed)
    }

    pub fn resolve(self, note: &[u8], sheet: &[u8], label: &[u8]) -> ResolveAnswer {
        let [note, sheet] = self.misread_texts(note, sheet);
        let found = self.comparing(Purpose::Enquiry).find(&note, &sheet, label);
        self.misread_named(found.unwrap_or_else(ResolveAnswer::refused))
    }

    /// "The enquiry checks 1, 2, 8, 7", the first two on both texts.
    fn find(self, note: &[u8], sheet: &[u8], label: &[u8]) -> Result<ResolveAnswer, Refusal> {
        self.misread_enquiry_order(note, label)?;
        let [note, sheet] = Source::both(self.checked_texts(note, sheet)?);
        let label = self.checked_label(label)?;
        let [own, shared] = [&note, &sheet].map(|source| self.outline(source));
        let joined = self.joined(own.definitions, shared.definitions);
        if self.misreads(Wrong::EnquiryRefusesDeep) {
            self.check_depth(&mark_each(&note, &own.paragraphs, &joined))?;
        }
        if self.misreads(Wrong::EnquiryRefusesConflicts) {
            self.check_conflicts(&joined, true)?;
        }
        match self.look_up(&joined, label) {
            Some(found) => {
                let Definition {
                    source,
                    destination,
                    ..
                } = joined[found - 1];
                let destination = destination.start..destination.end;
                self.misread_found(ResolveAnswer::found(destination, source.origin), found)
            }
            None => Err(Refusal::of(number::LABEL_UNDEFINED, 0)),
        }
    }

    /// Refusal 8.
    fn checked_label(self, label: &[u8]) -> Result<&str, Refusal> {
        match self.good_text(self.misread_asked(label)) {
            Ok(label) if self.is_label(label) || self.misreads_label(label) => Ok(label),
            _ if self.misreads(Wrong::NoLabelIsUndefined) => {
                Err(Refusal::of(number::LABEL_UNDEFINED, 0))
            }
            _ => Err(Refusal::of(number::NOT_A_LABEL, 0)),
        }
    }

    /// The part that the enquiry hands back: of "whichever of the two texts defines the label" (document
    /// 02, request 1).
    pub fn part<'t>(self, note: &'t [u8], sheet: &'t [u8], answer: &ResolveAnswer) -> &'t [u8] {
        let texts = [note, sheet];
        match self.misread_part(texts, answer) {
            Some(misread) => misread,
            None => &texts[answer.text][answer.destination.clone()],
        }
    }
}
