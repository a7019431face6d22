//! The sources' examples, the cases of the program `samples`, long notes and the benchmark's notes,
//! with tables and pages of every size near the need.

use crate::compare::{self, Lending, Texts};
use crate::settings;
use crate::trial::{label_of, Need};
use host::cases;
use host::generate::bench_notes::{self, BenchNote};
use host::second::{DEFINITION_ROW_WIDTH, LONGEST_NOTE, SPAN_ROW_WIDTH};
use host::sources::{examples, Example};

/// What was compared, or a failure with the first bytes of both texts.
pub fn must<T>(texts: Texts, compared: Result<T, String>) -> T {
    compared.unwrap_or_else(|what| panic!("{}\n{what}", texts.shown()))
}

/// Nothing, one less than the need, the need, one more, and part of a row more.
fn sizes(need: usize, width: usize) -> Vec<usize> {
    let mut sizes = vec![0, need.saturating_sub(1), need, need + 1, need + width - 1];
    sizes.dedup();
    sizes
}

/// Every choice of sizes near the need.
fn lendings(exactly: Lending) -> Vec<Lending> {
    let mut all = Vec::new();
    for definition_numbers in sizes(exactly.definition_numbers, DEFINITION_ROW_WIDTH) {
        for span_numbers in sizes(exactly.span_numbers, SPAN_ROW_WIDTH) {
            for page_bytes in sizes(exactly.page_bytes, 8) {
                all.push(Lending {
                    definition_numbers,
                    span_numbers,
                    page_bytes,
                });
            }
        }
    }
    all
}

/// Sizes near the need for one lent part at a time, the others with part of a row more.
fn lendings_one_by_one(exactly: Lending) -> Vec<Lending> {
    let more = Lending {
        definition_numbers: exactly.definition_numbers + 1,
        span_numbers: exactly.span_numbers + 1,
        page_bytes: exactly.page_bytes + 1,
    };
    let near = lendings(exactly).into_iter();
    let one_off = near.filter(|lending| {
        let same = [
            lending.definition_numbers == more.definition_numbers,
            lending.span_numbers == more.span_numbers,
            lending.page_bytes == more.page_bytes,
        ];
        same.iter().filter(|same| **same).count() >= 2
    });
    one_off.collect()
}

/// How often each number came up.
pub type CameUp = [usize; 10];

/// Through the reader and the page writer with each lending; returns what came up.
pub fn compare_with(texts: Texts, release: bool, lendings: &[Lending]) -> CameUp {
    let mut came_up = [0; 10];
    for lending in lendings {
        let named = must(texts, compare::render(texts, release, *lending));
        came_up[named.number as usize] += 1;
        must(texts, compare::read(texts, release, *lending));
    }
    came_up
}

/// The enquiry about every label that the texts define, and about the texts of the spans.
pub fn compare_enquiries(texts: Texts, need: &Need) {
    let resolve = |label: &[u8]| must(texts, compare::resolve(texts, label));
    for row in &need.definitions {
        let label = label_of(texts, row);
        assert_eq!(resolve(label).number, 0, "a defined label is found");
        resolve(String::from_utf8_lossy(label).to_uppercase().as_bytes());
        resolve(&[b" \n", label, b"\t"].concat());
    }
    for [_, _, _, start, end, ..] in &need.spans {
        resolve(&texts.note[*start as usize..*end as usize]);
    }
    resolve(b"");
}

/// Short texts at every size near the need; returns what came up for no release, and for one.
pub fn compare_at_every_size(texts: Texts) -> [CameUp; 2] {
    let need = Need::of(texts);
    compare_enquiries(texts, &need);
    let near = lendings(need.exactly());
    [false, true].map(|release| compare_with(texts, release, &near))
}

#[test]
fn examples_at_every_size() {
    let mut examples = examples();
    examples.retain(Example::is_in_scope);
    assert_eq!(examples.len(), 229 + 5 + 28);
    let mut refusals = [[0; 10]; 2];
    for example in examples {
        let came_up = compare_at_every_size(Texts::alone(example.note.as_bytes()));
        let sums = refusals.iter_mut().flatten();
        sums.zip(came_up.concat())
            .for_each(|(sum, more)| *sum += more);
    }
    for came_up in refusals {
        let often = [0, 3, 5, 6].map(|number| came_up[number] > 100);
        assert_eq!(often, [true; 4], "refusals by number {refusals:?}");
    }
    let [without, released] = refusals.map(|came_up| came_up[9]);
    assert!(without == 0 && released > 100, "{without}, {released}");
}

#[test]
fn cases_of_the_samples() {
    let cases = cases::all();
    assert!(cases.len() > 1_000, "{} cases", cases.len());
    for case in cases {
        let texts = Texts {
            note: &case.note,
            sheet: &case.sheet,
        };
        let need = Need::of(texts);
        let mut all = lendings_one_by_one(need.exactly());
        all.push(Lending {
            definition_numbers: case.definition_numbers,
            span_numbers: case.span_numbers,
            page_bytes: case.page_bytes,
        });
        let own = all.len() - 1;
        compare_with(texts, case.release, &all[own..]);
        must(texts, compare::resolve(texts, &case.label));
        // Hard texts take the second reader long.
        if case.note.len() + case.sheet.len() <= 2_000 {
            compare_with(texts, false, &all[..own]);
            compare_with(texts, true, &all[..own]);
            compare_enquiries(texts, &need);
        }
    }
}

/// Texts through all three entries with part of a row more than they need: the reader for a release, the page
/// writer for none.
pub fn compare_long(texts: Texts) -> Need {
    let need = Need::of(texts);
    let exactly = need.exactly();
    let more = Lending {
        definition_numbers: exactly.definition_numbers + DEFINITION_ROW_WIDTH - 1,
        span_numbers: exactly.span_numbers + SPAN_ROW_WIDTH - 1,
        page_bytes: exactly.page_bytes + 1,
    };
    must(texts, compare::read(texts, true, more));
    must(texts, compare::render(texts, false, more));
    must(texts, settings::compare(texts, more));
    let last = need.definitions.last();
    let label = last.map_or(&texts.note[..1], |row| label_of(texts, row));
    must(texts, compare::resolve(texts, label));
    need
}

/// The same of a note alone.
pub fn compare_long_note(note: &[u8]) -> Need {
    compare_long(Texts::alone(note))
}

#[test]
fn notes_of_the_benchmark() {
    for BenchNote {
        name, bytes, sheet, ..
    } in &bench_notes::all()
    {
        assert!(bytes.len().max(sheet.len()) <= LONGEST_NOTE, "{name}");
        compare_long(Texts { note: bytes, sheet });
    }
}

#[test]
fn longest_notes() {
    let pieces = [
        "a",
        "`a` ",
        "`\n`\n",
        "[a][b]",
        "[a]: b\n",
        "[a\nb]:\nc\n\n",
        "\\\n",
        "&\"",
        "\n\na",
        "[a](b 'c')",
        "![a](b 'c')",
        "[![a](b)](c)",
        "![]",
        "!",
        "!\\[",
        "é",
        "😀",
    ];
    for piece in pieces {
        let note = piece.repeat(LONGEST_NOTE / piece.len()).into_bytes();
        let texts = Texts::alone(&note);
        let exactly = compare_long(texts).exactly();
        let short_page = Lending {
            page_bytes: exactly.page_bytes.saturating_sub(1),
            ..exactly
        };
        must(texts, compare::render(texts, true, short_page));
    }
}
