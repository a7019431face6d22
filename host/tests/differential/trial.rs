//! A note and a sheet through the three entries, with the setting, what is lent and what is asked chosen by chance.

use crate::compare::{self, Compared, Lending, Texts};
use crate::settings;
use host::generate::chance::Chance;
use host::generate::grammar;
use host::second::{self, kind, DefinitionRow, Reader, SpanRow, Wrong};
use host::second::{DEFINITION_ROW_WIDTH, SPAN_ROW_WIDTH};

/// What a note and a sheet need, and their rows.
pub struct Need {
    pub definitions: Vec<DefinitionRow>,
    pub spans: Vec<SpanRow>,
    pub page: usize,
}

impl Need {
    /// By the second reader; nothing where a refusal hides it.
    pub fn of(texts: Texts) -> Need {
        let Texts { note, sheet } = texts;
        let answer = second::render(note, sheet, false, usize::MAX, usize::MAX, usize::MAX);
        Need {
            definitions: answer.definition_rows.unwrap_or_default(),
            spans: answer.span_rows.unwrap_or_default(),
            page: answer.page_length,
        }
    }

    /// Exactly what is needed.
    pub fn exactly(&self) -> Lending {
        Lending {
            definition_numbers: self.definitions.len() * DEFINITION_ROW_WIDTH,
            span_numbers: self.spans.len() * SPAN_ROW_WIDTH,
            page_bytes: self.page,
        }
    }

    /// Enough of all, or too little of one, or any of each.
    fn by_chance(&self, chance: &mut Chance) -> Lending {
        let exactly = self.exactly();
        let short = chance.below(8);
        let lent = |number: usize, need: usize, width: usize, chance: &mut Chance| {
            let any = short == 4 && chance.once_in(2);
            if short == number || any {
                too_few(need, chance)
            } else {
                need + chance.below(2 * width + 2)
            }
        };
        Lending {
            definition_numbers: lent(0, exactly.definition_numbers, DEFINITION_ROW_WIDTH, chance),
            span_numbers: lent(1, exactly.span_numbers, SPAN_ROW_WIDTH, chance),
            page_bytes: lent(2, exactly.page_bytes, 8, chance),
        }
    }

    /// Whether a reference by its own text finds its definition by folding past Z alone.
    fn is_folded(&self, texts: Texts, row: &SpanRow) -> bool {
        let [kind, _, _, start, end, definition, ..] = *row;
        let by_text = [
            kind::COLLAPSED,
            kind::SHORTCUT,
            kind::COLLAPSED_IMAGE,
            kind::SHORTCUT_IMAGE,
        ];
        if !by_text.contains(&kind) {
            return false;
        }
        let own = &texts.note[start as usize..end as usize];
        let label = label_of(texts, &self.definitions[definition as usize - 1]);
        let in_ascii = own.is_ascii() && label.is_ascii();
        !in_ascii && !Reader::misreading(Wrong::OnlyAsciiFolded).same_label(own, label)
    }

    /// A label to ask for: mostly one that the note or the sheet defines, or nearly.
    fn label(&self, texts: Texts, chance: &mut Chance) -> Vec<u8> {
        if self.definitions.is_empty() || chance.once_in(4) {
            return label_by_chance(chance);
        }
        let label = label_of(texts, &chance.one_of(&self.definitions));
        let label = std::str::from_utf8(label).expect("a label of a good text");
        match chance.below(5) {
            0 => label.as_bytes().to_vec(),
            1 => [label.as_bytes(), b"\\"].concat(),
            2 => label.bytes().skip(1).collect(),
            _ => grammar::varied(chance, label).into_bytes(),
        }
    }
}

/// The label of a definition, as its row says where it stands.
pub fn label_of<'t>(texts: Texts<'t>, row: &DefinitionRow) -> &'t [u8] {
    let [text, start, end, ..] = *row;
    &texts.text(text)[start as usize..end as usize]
}

/// Less than the need, if that can be.
fn too_few(need: usize, chance: &mut Chance) -> usize {
    match chance.below(3) {
        0 => need.saturating_sub(1),
        1 => 0,
        _ => chance.below(need + 1),
    }
}

/// A label of the grammar's, or up to six pieces of which some are no part of a label.
fn label_by_chance(chance: &mut Chance) -> Vec<u8> {
    const PIECES: &[&[u8]] = &[
        b"a",
        b"b",
        b"A",
        b" ",
        b"\n",
        b"\t",
        b"\\",
        b"\\]",
        b"\\[",
        b"\xc3\xa9",
        b"\xc3\x9f",
        b"ss",
        b"\xd0\x96",
        b"\xce\xa3",
        b"\xce",
        b"!",
        b"[",
        b"]",
        b"\xff",
        b"\0",
        b"\r",
    ];
    if chance.once_in(2) {
        return grammar::label(chance).into_bytes();
    }
    let count = chance.below(7);
    (0..count)
        .flat_map(|_| chance.one_of(PIECES))
        .copied()
        .collect()
}

/// How often each number was answered about each text.
type Numbers = [[usize; 10]; 2];

/// What came up over many trials.
#[derive(Default)]
pub struct Tally {
    reader: Numbers,
    writer: Numbers,
    enquiry: Numbers,
    kinds: [usize; 10],
    /// Spans in another: links in images, images in links, images in images.
    held: [usize; 3],
    /// Definitions past their text's first line, definitions over lines, spans past it, spans over lines.
    lines: [usize; 4],
    /// References to definitions of each text.
    references: [usize; 2],
    /// Those by their own text that would find no definition by folding A to Z alone.
    folded: usize,
}

impl Tally {
    /// Every answer and every kind of row came up, often enough to mean something.
    pub fn assert_all_came_up(&self, least: usize) {
        let from =
            |numbers: &[usize], list: &[usize]| list.iter().all(|number| numbers[*number] >= least);
        let [reader, writer, enquiry] = [&self.reader, &self.writer, &self.enquiry];
        assert!(from(&reader[0], &[0, 2, 3, 4, 5, 9]), "reader {reader:?}");
        assert!(
            from(&writer[0], &[0, 2, 3, 4, 5, 6, 9]),
            "page writer {writer:?}"
        );
        assert!(from(&enquiry[0], &[0, 2, 7, 8]), "enquiry {enquiry:?}");
        assert!(
            from(&self.kinds, &[1, 2, 3, 4, 5, 6, 7, 8, 9]),
            "kinds of row {:?}",
            self.kinds
        );
        assert!(
            from(&self.held, &[0, 1, 2]),
            "in each other {:?}",
            self.held
        );
        assert!(from(&self.lines, &[0, 1, 2, 3]), "lines {:?}", self.lines);
        assert!(self.folded >= least, "{} by folding", self.folded);
    }

    /// So did every answer that names the sheet, and references to both texts.
    pub fn assert_sheets_came_up(&self, least: usize) {
        let [reader, writer, enquiry] = [&self.reader, &self.writer, &self.enquiry].map(|of| of[1]);
        assert!(reader[2] >= least, "reader {reader:?}");
        assert!(writer[2] >= least, "page writer {writer:?}");
        assert!(
            enquiry[0] >= least && enquiry[2] >= least,
            "enquiry {enquiry:?}"
        );
        let long = [reader, writer, enquiry].map(|of| of[1]);
        assert!(long.iter().all(|count| *count > 0), "too long {long:?}");
        assert!(
            self.references.iter().all(|count| *count >= least),
            "references {:?}",
            self.references
        );
    }

    /// So did images, links in them and images in each other.
    pub fn assert_images(&self, least: usize) {
        let images = &self.kinds[kind::INLINE_IMAGE as usize..];
        assert!(
            images.iter().all(|count| *count >= least / 10),
            "{images:?}"
        );
        assert!(images.iter().sum::<usize>() >= least, "{images:?}");
        let held = &self.held;
        assert!(held.iter().all(|count| *count >= least / 10), "{held:?}");
    }

    /// So did notes with too many brackets open, and notes with none too many.
    pub fn assert_deep(&self, least: usize) {
        let [reader, writer] = [&self.reader, &self.writer].map(|of| of[0]);
        assert!(reader[4] >= least && reader[0] >= least, "{reader:?}");
        assert!(writer[4] >= least && writer[0] >= least, "{writer:?}");
    }

    /// Releases were stopped.
    pub fn assert_stopped(&self, least: usize) {
        let [reader, writer] = [&self.reader, &self.writer].map(|of| of[0]);
        assert!(reader[9] >= least, "reader {reader:?}");
        assert!(writer[9] >= least, "page writer {writer:?}");
    }

    /// Counts the rows of a note and a sheet.
    fn count_rows(&mut self, texts: Texts, need: &Need) {
        let mut count = |line: u32, first: usize, part: &[u8]| {
            self.lines[first] += usize::from(line > 1);
            self.lines[first + 1] += usize::from(part.contains(&b'\n'));
        };
        for [text, label, _, _, destination_end, _, title_end, line] in &need.definitions {
            let end = destination_end.max(title_end);
            let whole = texts.text(*text);
            count(*line, 0, &whole[*label as usize..*end as usize]);
        }
        for [kind, start, end, _, _, definition, .., line] in &need.spans {
            count(*line, 2, &texts.note[*start as usize..*end as usize]);
            self.kinds[*kind as usize] += 1;
            if let Some(index) = definition.checked_sub(1) {
                let text = need.definitions[index as usize][0];
                self.references[text as usize] += 1;
            }
        }
        let folded = need.spans.iter().filter(|row| need.is_folded(texts, row));
        self.folded += folded.count();
        self.count_held(&need.spans);
    }

    /// Counts the spans that are in the one whose row is the next: a span ends before what it stands in.
    fn count_held(&mut self, rows: &[SpanRow]) {
        let is_image = |row: &SpanRow| row[0] >= kind::INLINE_IMAGE;
        let is_link = |row: &SpanRow| (kind::INLINE..=kind::SHORTCUT).contains(&row[0]);
        for two in rows.windows(2) {
            let [held, around] = [&two[0], &two[1]];
            if held[1] > around[1] {
                self.held[0] += usize::from(is_link(held) && is_image(around));
                self.held[1] += usize::from(is_image(held) && is_link(around));
                self.held[2] += usize::from(is_image(held) && is_image(around));
            }
        }
    }
}

/// All comparisons of a note and a sheet; the variant chooses the setting, what is lent and which labels are
/// asked for.
pub fn compare(texts: Texts, variant: u64, tally: &mut Tally) -> Result<(), String> {
    let chance = &mut Chance::from_seed(variant);
    let need = Need::of(texts);
    tally.count_rows(texts, &need);
    let (release, lending) = (chance.once_in(2), need.by_chance(chance));
    count(&mut tally.writer, compare::render(texts, release, lending))?;
    settings::compare(texts, lending)?;
    let (release, lending) = (chance.once_in(2), need.by_chance(chance));
    count(&mut tally.reader, compare::read(texts, release, lending))?;
    settings::compare(texts, lending)?;
    for _ in 0..2 {
        let label = need.label(texts, chance);
        count(&mut tally.enquiry, compare::resolve(texts, &label))?;
    }
    Ok(())
}

fn count(numbers: &mut Numbers, compared: Compared) -> Result<(), String> {
    let named = compared?;
    numbers[named.text as usize][named.number as usize] += 1;
    Ok(())
}
