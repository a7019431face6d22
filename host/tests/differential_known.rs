//! The answers that are known beforehand, against the proved library: the tests of `edges`
//! (numbers counted by hand), of `examples.rs` (the sources' pages) and of `requests.rs` (an independent
//! reader's answers) are run a second time, with the library's entries in the place of the second reader.

// In all of them `host` means this one, so `host::second` is the module below.
extern crate host as package;
extern crate self as host;

pub use package::{case_folding, cases, json, sources};

/// The library in the second reader's form. Its reader and the quick one agree.
pub mod second {
    pub use package::second::{
        number, DefinitionRow, ReadAnswer, RenderAnswer, ResolveAnswer, SpanRow,
        DEFINITION_ROW_WIDTH, SPAN_ROW_WIDTH,
    };
    use package::{entries, quick};
    // The second reader itself, for answers that are held against both.
    pub use package::second::{Reader, Wrong};

    /// A number and a byte that stand in no row and no page.
    const NUMBER: u32 = u32::MAX;
    const BYTE: u8 = 0xff;
    /// More than any of the notes needs.
    const MOST_NUMBERS: usize = 120_003;
    const MOST_BYTES: usize = 400_000;

    pub fn read(
        note: &[u8],
        sheet: &[u8],
        release: bool,
        definition_numbers: usize,
        span_numbers: usize,
    ) -> ReadAnswer {
        let mut definitions = vec![NUMBER; definition_numbers.min(MOST_NUMBERS)];
        let mut spans = vec![NUMBER; span_numbers.min(MOST_NUMBERS)];
        let [mut own_definitions, mut own_spans] = [definitions.clone(), spans.clone()];
        let answer = entries::read(note, sheet, release, &mut definitions, &mut spans);
        let mut quick = quick::Reader::default();
        let own = quick.read(note, sheet, release, &mut own_definitions, &mut own_spans);
        assert_eq!(
            (own, own_definitions, own_spans),
            (answer, definitions.clone(), spans.clone())
        );
        ReadAnswer {
            number: answer.number,
            value: answer.value as usize,
            definition_count: answer.definitions as usize,
            span_count: answer.spans as usize,
            text: answer.text as usize,
            definition_rows: rows(&definitions, !matches!(answer.number, 1..=3)),
            span_rows: rows(&spans, !matches!(answer.number, 1..=5 | 9)),
        }
    }

    pub fn render(
        note: &[u8],
        sheet: &[u8],
        release: bool,
        definition_numbers: usize,
        span_numbers: usize,
        page_bytes: usize,
    ) -> RenderAnswer {
        let mut definitions = vec![NUMBER; definition_numbers.min(MOST_NUMBERS)];
        let mut spans = vec![NUMBER; span_numbers.min(MOST_NUMBERS)];
        let mut page = vec![BYTE; page_bytes.min(MOST_BYTES)];
        let answer = entries::render(
            note,
            sheet,
            release,
            &mut definitions,
            &mut spans,
            &mut page,
        );
        RenderAnswer {
            number: answer.number,
            value: answer.value as usize,
            definition_count: answer.definitions as usize,
            span_count: answer.spans as usize,
            page_length: answer.length as usize,
            text: answer.text as usize,
            definition_rows: rows(&definitions, !matches!(answer.number, 1..=3)),
            span_rows: rows(&spans, !matches!(answer.number, 1..=5 | 9)),
            page: written(page, answer.number == 0),
        }
    }

    pub fn resolve(note: &[u8], sheet: &[u8], label: &[u8]) -> ResolveAnswer {
        let answer = entries::resolve(note, sheet, label);
        ResolveAnswer {
            number: answer.number,
            value: answer.value as usize,
            destination: answer.start as usize..answer.end as usize,
            text: answer.text as usize,
        }
    }

    pub fn same_label(a: &[u8], b: &[u8]) -> bool {
        let number = entries::same_label(a, b);
        assert!(number <= 1, "{number} for two labels");
        number == 1
    }

    /// The rows at the start of a table that was full of `NUMBER`; `None` where nothing is written
    /// and nothing should be. A row written in part is kept, so that it differs from any wanted.
    fn rows<const WIDTH: usize>(table: &[u32], expected: bool) -> Option<Vec<[u32; WIDTH]>> {
        let last = table.iter().rposition(|number| *number != NUMBER);
        let length = last.map_or(0, |last| last + 1);
        if length == 0 && !expected {
            return None;
        }
        let mut numbers = table[..length].to_vec();
        numbers.resize(length.next_multiple_of(WIDTH), NUMBER);
        let row = |chunk: &[u32]| std::array::from_fn(|place| chunk[place]);
        Some(numbers.chunks(WIDTH).map(row).collect())
    }

    /// The bytes written at the start of a page that was full of `BYTE`, likewise.
    fn written(mut page: Vec<u8>, expected: bool) -> Option<Vec<u8>> {
        let last = page.iter().rposition(|byte| *byte != BYTE);
        page.truncate(last.map_or(0, |last| last + 1));
        (expected || !page.is_empty()).then_some(page)
    }
}

#[path = "edges/main.rs"]
mod edges;
#[path = "examples.rs"]
mod examples;
#[path = "requests.rs"]
mod requests;
