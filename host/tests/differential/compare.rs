//! One call of the library, or of the quick reader, and the second reader's answer to it.

use crate::lent::{byte_guard, number_guard, Lent};
use crate::quick;
use host::entries::{self, Enquiry, Reading, Rendering};
use host::second::{self, alone, ReadAnswer, RenderAnswer, ResolveAnswer};

/// The two texts of a call.
#[derive(Clone, Copy)]
pub struct Texts<'t> {
    pub note: &'t [u8],
    pub sheet: &'t [u8],
}

impl<'t> Texts<'t> {
    /// A note with an empty sheet beside it.
    pub fn alone(note: &'t [u8]) -> Texts<'t> {
        Texts { note, sheet: b"" }
    }

    /// The text with this number.
    pub fn text(self, number: u32) -> &'t [u8] {
        [self.note, self.sheet][number as usize]
    }

    /// Both, as far as they are short, for a person.
    pub fn shown(self) -> String {
        let [note, sheet] = [self.note, self.sheet].map(|text| {
            let start = &text[..text.len().min(400)];
            format!("{} bytes \"{}\"", text.len(), start.escape_ascii())
        });
        format!("note of {note}, sheet of {sheet}")
    }
}

/// How much is lent to a call.
#[derive(Clone, Copy, Debug, PartialEq, Eq)]
pub struct Lending {
    pub definition_numbers: usize,
    pub span_numbers: usize,
    pub page_bytes: usize,
}

impl Lending {
    /// The numbers of the definition table where a row has no leading number: of as many whole rows.
    fn definition_numbers_alone(self) -> usize {
        self.definition_numbers / second::DEFINITION_ROW_WIDTH * alone::DEFINITION_ROW_WIDTH
    }
}

/// The number of an answer, and the text that it names.
#[derive(Clone, Copy, Debug, PartialEq, Eq)]
pub struct Named {
    pub number: u32,
    pub text: u32,
}

/// What a comparison gives: what was answered, or what differs.
pub type Compared = Result<Named, String>;

/// Memory that is only read: the note and the sheet.
struct ReadOnly {
    note: Lent<u8>,
    sheet: Lent<u8>,
}

impl ReadOnly {
    fn lent(texts: Texts) -> ReadOnly {
        ReadOnly {
            note: Lent::bytes(texts.note),
            sheet: Lent::bytes(texts.sheet),
        }
    }

    fn same(&self, texts: Texts) -> Result<(), String> {
        self.note.same("note", texts.note)?;
        self.sheet.same("sheet", texts.sheet)
    }
}

/// The two tables of a call.
struct Tables {
    definitions: Lent<u32>,
    spans: Lent<u32>,
}

impl Tables {
    fn lent(lending: Lending) -> Tables {
        Tables {
            definitions: Lent::of(lending.definition_numbers, number_guard),
            spans: Lent::of(lending.span_numbers, number_guard),
        }
    }

    /// Whether the tables are what `after` makes of what they held before the call.
    fn same(&self, after: impl Fn(&[u32], &[u32]) -> (Vec<u32>, Vec<u32>)) -> Result<(), String> {
        let (definitions, spans) = after(self.definitions.before(), self.spans.before());
        self.definitions.same("definition table", &definitions)?;
        self.spans.same("span table", &spans)
    }
}

/// The reader, and the quick one. With an empty sheet, and for no release, the answer is held against the one for the note
/// alone.
pub fn read(texts: Texts, release: bool, lending: Lending) -> Compared {
    let wanted = wanted_reading(texts, release, lending);
    for (name, call) in [
        ("read", entries::read as Read),
        ("quick reader", quick::read),
    ] {
        compare_reading(texts, release, lending, &wanted, call)
            .map_err(|what| format!("{name} with {lending:?}, release {release}\n{what}"))?;
    }
    Ok(named(wanted.number, wanted.text))
}

/// A reader, as it is called.
type Read = fn(&[u8], &[u8], bool, &mut [u32], &mut [u32]) -> Reading;

fn wanted_reading(texts: Texts, release: bool, lending: Lending) -> ReadAnswer {
    let Texts { note, sheet } = texts;
    let Lending {
        definition_numbers,
        span_numbers,
        ..
    } = lending;
    if sheet.is_empty() && !release {
        let numbers = lending.definition_numbers_alone();
        let old = alone::read(note, numbers, span_numbers);
        return old.with_empty_sheet().without_page();
    }
    second::read(note, sheet, release, definition_numbers, span_numbers)
}

/// One call of a reader.
fn compare_reading(
    texts: Texts,
    release: bool,
    lending: Lending,
    wanted: &ReadAnswer,
    call: Read,
) -> Result<(), String> {
    let mut lent = ReadOnly::lent(texts);
    let mut tables = Tables::lent(lending);
    let given = call(
        lent.note.part(),
        lent.sheet.part(),
        release,
        tables.definitions.part(),
        tables.spans.part(),
    );
    same(&given, &reading(wanted))?;
    lent.same(texts)?;
    tables.same(|definitions, spans| {
        (
            wanted.definition_table(definitions),
            wanted.span_table(spans),
        )
    })
}

/// The page writer, likewise.
pub fn render(texts: Texts, release: bool, lending: Lending) -> Compared {
    let wanted = wanted_rendering(texts, release, lending);
    let mut lent = ReadOnly::lent(texts);
    let mut tables = Tables::lent(lending);
    let mut page = Lent::of(lending.page_bytes, byte_guard);
    let given = entries::render(
        lent.note.part(),
        lent.sheet.part(),
        release,
        tables.definitions.part(),
        tables.spans.part(),
        page.part(),
    );
    let after = |definitions: &[u32], spans: &[u32]| {
        (
            wanted.definition_table(definitions),
            wanted.span_table(spans),
        )
    };
    same(&given, &rendering(&wanted))
        .and_then(|()| lent.same(texts))
        .and_then(|()| tables.same(after))
        .and_then(|()| page.same("page", &wanted.page_buffer(page.before())))
        .map_err(|what| format!("render with {lending:?}, release {release}\n{what}"))?;
    Ok(named(wanted.number, wanted.text))
}

fn wanted_rendering(texts: Texts, release: bool, lending: Lending) -> RenderAnswer {
    let Texts { note, sheet } = texts;
    let Lending {
        definition_numbers,
        span_numbers,
        page_bytes,
    } = lending;
    if sheet.is_empty() && !release {
        let numbers = lending.definition_numbers_alone();
        let old = alone::render(note, numbers, span_numbers, page_bytes);
        return old.with_empty_sheet();
    }
    second::render(
        note,
        sheet,
        release,
        definition_numbers,
        span_numbers,
        page_bytes,
    )
}

/// The enquiry, likewise; it knows no release.
pub fn resolve(texts: Texts, label: &[u8]) -> Compared {
    let Texts { note, sheet } = texts;
    let wanted = if sheet.is_empty() {
        alone::resolve(note, label).with_empty_sheet()
    } else {
        second::resolve(note, sheet, label)
    };
    let mut lent = ReadOnly::lent(texts);
    let mut asked = Lent::bytes(label);
    let given = entries::resolve(lent.note.part(), lent.sheet.part(), asked.part());
    same(&given, &enquiry(&wanted))
        .and_then(|()| lent.same(texts))
        .and_then(|()| asked.same("label", label))
        .map_err(|what| format!("resolve of \"{}\"\n{what}", label.escape_ascii()))?;
    Ok(named(wanted.number, wanted.text))
}

/// The comparison of two labels: 1 where they are equal, else 0.
pub fn same_label(a: &[u8], b: &[u8]) -> Result<u32, String> {
    let [mut one, mut other] = [a, b].map(Lent::bytes);
    let given = entries::same_label(one.part(), other.part());
    let wanted = u32::from(second::same_label(a, b));
    same(&given, &wanted)
        .and_then(|()| one.same("one label", a))
        .and_then(|()| other.same("other label", b))
        .map_err(|what| {
            let [a, b] = [a, b].map(<[u8]>::escape_ascii);
            format!("labels \"{a}\" and \"{b}\"\n{what}")
        })?;
    Ok(wanted)
}

/// Whether the two answers are the same.
fn same<T: PartialEq + std::fmt::Debug>(given: &T, wanted: &T) -> Result<(), String> {
    if given == wanted {
        return Ok(());
    }
    Err(format!("answer:\n  given  {given:?}\n  wanted {wanted:?}"))
}

fn named(number: u32, text: usize) -> Named {
    Named {
        number,
        text: text as u32,
    }
}

pub fn reading(answer: &ReadAnswer) -> Reading {
    Reading {
        number: answer.number,
        value: answer.value as u64,
        definitions: answer.definition_count as u64,
        spans: answer.span_count as u64,
        text: answer.text as u64,
    }
}

pub fn rendering(answer: &RenderAnswer) -> Rendering {
    Rendering {
        number: answer.number,
        value: answer.value as u64,
        definitions: answer.definition_count as u64,
        spans: answer.span_count as u64,
        length: answer.page_length as u64,
        text: answer.text as u64,
    }
}

pub fn enquiry(answer: &ResolveAnswer) -> Enquiry {
    Enquiry {
        number: answer.number,
        value: answer.value as u64,
        start: answer.destination.start as u64,
        end: answer.destination.end as u64,
        text: answer.text as u64,
    }
}
