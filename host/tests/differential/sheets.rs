//! A sheet beside the note: every short one, texts that are cut in two, the sheet refused in every way, tables
//! near the joined count, enquiries over both texts, and texts that share their memory.

use crate::bad::{bad, compare_texts};
use crate::compare::{self, Named, Texts};
use crate::lines::definition_tables;
use crate::named::{compare_at_every_size, compare_enquiries, compare_long, compare_with, must};
use crate::random::{self, every_text, report};
use crate::trial::{self, label_of, Need, Tally};
use host::entries;
use host::generate::alphabets::ALPHABETS;
use host::generate::chance::Chance;
use host::generate::{grammar, sheets};
use host::second::{self, alone, LONGEST_NOTE};
use host::sources::{examples, Example};

const NOTE: &[u8] = b"[a]: /n 'n'\n\n[a] [b] [x][c]\n";
const SHEET: &[u8] = b"Limits\n\n[b]: /s\n[A]: /t 't'\n\n[c]:\n<u v>\n";

/// All comparisons of two texts.
fn compare_both(note: &[u8], sheet: &[u8], variant: u64) {
    let texts = Texts { note, sheet };
    if let Err(what) = trial::compare(texts, variant, &mut Tally::default()) {
        report("short texts", texts, variant, &what);
    }
}

#[test]
fn every_short_sheet() {
    for (variant, sheet) in every_text(b"", b"[]:a \n\\", 5) {
        compare_both(b"[a]", &sheet, variant);
    }
    for (variant, sheet) in every_text(b"[a]:", b"<>b\"() \n\\", 4) {
        compare_both(b"[a]: n\n\n[a]", &sheet, variant);
    }
}

/// Every short text cut in two: nothing goes on from the note to the sheet.
#[test]
fn every_short_text_in_two() {
    for (variant, text) in every_text(b"[a]", b"[]:(b`\n", 4) {
        for place in 0..=text.len() {
            let (note, sheet) = text.split_at(place);
            compare_both(note, sheet, variant);
        }
    }
}

/// Each example with its sheet: the example itself, and every cut of it.
#[test]
fn examples_in_two() {
    for example in examples().iter().filter(|example| example.is_in_scope()) {
        let text = example.note.as_bytes();
        compare_at_every_size(Texts {
            note: text,
            sheet: text,
        });
        for place in (0..=text.len()).filter(|place| example.note.is_char_boundary(*place)) {
            let (note, sheet) = text.split_at(place);
            compare_both(note, sheet, place as u64);
        }
    }
}

/// An empty sheet gives the answers for the note alone: the second reader by the joined list, and by one text.
#[test]
fn the_second_reader_with_an_empty_sheet() {
    let mut examples = examples();
    examples.retain(Example::is_in_scope);
    let notes = examples
        .into_iter()
        .map(|example| example.note.into_bytes());
    let mut notes: Vec<Vec<u8>> = notes.collect();
    notes.extend((0..20_000).map(|index| {
        let chance = &mut random::chance(index);
        if chance.once_in(2) {
            return grammar::note(chance);
        }
        ALPHABETS[chance.below(ALPHABETS.len())].note(chance)
    }));
    for (index, note) in notes.iter().enumerate() {
        let [rows, numbers, bytes] = [index % 4, 9 * (index % 7), 60 * (index % 5)];
        let old = alone::render(note, rows * alone::DEFINITION_ROW_WIDTH, numbers, bytes);
        let definition_numbers = rows * second::DEFINITION_ROW_WIDTH;
        let new = second::render(note, b"", false, definition_numbers, numbers, bytes);
        assert_eq!(new, old.with_empty_sheet());
        let old = alone::resolve(note, b"a b").with_empty_sheet();
        assert_eq!(second::resolve(note, b"", b"a b"), old);
    }
}

/// Notes that are good, and refused.
fn notes() -> [(Vec<u8>, Option<u32>); 6] {
    let deep = [NOTE, &[b'['; 1_025]].concat();
    [
        (Vec::new(), None),
        (NOTE.to_vec(), None),
        (deep, None),
        (vec![b'a'; LONGEST_NOTE], None),
        (vec![b'\r'; LONGEST_NOTE + 1], Some(1)),
        (b"[a]: /n\n\n\xff".to_vec(), Some(2)),
    ]
}

/// Compares a sheet that is refused with this number beside each of the notes.
fn compare_refused(sheet: &[u8], number: u32) {
    for (note, refused) in notes() {
        let texts = Texts { note: &note, sheet };
        for label in [b"a".as_slice(), b"]"] {
            let named = compare_texts(texts, label);
            let wanted = Named {
                number: refused.unwrap_or(number),
                text: u32::from(refused.is_none()),
            };
            assert_eq!(named, wanted, "{}", texts.shown());
        }
    }
}

#[test]
fn bad_bytes_in_sheets() {
    for bad in &bad() {
        let longest = [&vec![b'a'; LONGEST_NOTE - bad.len()], bad.as_slice()].concat();
        let places: [&[&[u8]]; 6] = [
            &[bad],
            &[bad, b"[a]: /s"],
            &["é [a](b) ".as_bytes(), bad, b" `c`"],
            &[b"[a]: /s\n\n[b]: ", bad],
            &[b"[", bad, b"]: /s"],
            &[&longest],
        ];
        for place in places {
            compare_refused(&place.concat(), 2);
        }
        let too_long = [bad.as_slice(), &vec![b'a'; LONGEST_NOTE]].concat();
        compare_refused(&too_long, 1);
    }
}

#[test]
fn lengths_of_sheets() {
    for byte in [b'a', b' ', b'\n', b'[', b'\\', b':', 0, 0x80] {
        for length in [LONGEST_NOTE + 1, 1 << 20] {
            compare_refused(&vec![byte; length], 1);
        }
        let longest = vec![byte; LONGEST_NOTE];
        for note in [b"".as_slice(), NOTE, &longest] {
            let texts = Texts {
                note,
                sheet: &longest,
            };
            compare_texts(texts, b"a");
        }
    }
}

/// Both texts of the longest size, with definitions and paragraphs.
#[test]
fn longest_sheets() {
    let pieces = [
        "[a]: b\n",
        "[a\nb]:\nc\n\n",
        "x\n\n",
        "[b](c) `d` ",
        "é",
        "\n",
    ];
    let filled = |piece: &str, end: &str| {
        let room = LONGEST_NOTE - end.len();
        let mut text = piece.repeat(room / piece.len());
        text += &" ".repeat(room - text.len());
        (text + end).into_bytes()
    };
    for piece in pieces {
        let sheet = filled(piece, "\n\n[last]: /s 't'");
        for note in [b"[last] [a] [a b]".to_vec(), filled("[last] x ", "\n[a]")] {
            assert_eq!(sheet.len(), LONGEST_NOTE);
            let texts = Texts {
                note: &note,
                sheet: &sheet,
            };
            let need = compare_long(texts);
            let last = need.definitions.last().expect("a definition");
            assert_eq!(label_of(texts, last), b"last");
        }
    }
}

/// So many definitions in the note and so many in the sheet, of which every third is hidden.
fn defined(own: usize, shared: usize) -> [String; 2] {
    let definition = |text: &str, number: usize| format!("[l{number}]: /{text}{number}\n");
    let note: String = (0..own).map(|number| definition("n", number)).collect();
    let hidden = |number: usize| {
        if number % 3 == 0 {
            number / 3
        } else {
            own + number
        }
    };
    let sheet: String = (0..shared)
        .map(|number| definition("s", hidden(number)))
        .collect();
    let used: String = (0..own + shared)
        .map(|number| format!("[l{number}] "))
        .collect();
    [note + "\n" + &used, sheet]
}

#[test]
fn tables_near_the_joined_count() {
    for own in 0..6 {
        for shared in 0..6 {
            let [note, sheet] = defined(own, shared);
            let texts = Texts {
                note: note.as_bytes(),
                sheet: sheet.as_bytes(),
            };
            let need = Need::of(texts);
            assert_eq!(need.definitions.len(), own + shared);
            let tables: Vec<_> = definition_tables(&need).collect();
            let came_up = compare_with(texts, false, &tables);
            assert_eq!((came_up[3], came_up[0]), (own + shared, 2));
            compare_at_every_size(texts);
        }
    }
}

/// Labels that the note defines, the sheet, both and neither.
#[test]
fn enquiries_over_both_texts() {
    let texts = Texts {
        note: NOTE,
        sheet: SHEET,
    };
    for (label, number, text) in [
        ("a", 0, 0),
        ("B", 0, 1),
        (" c\n", 0, 1),
        ("d", 7, 0),
        ("", 8, 0),
    ] {
        let named = must(texts, compare::resolve(texts, label.as_bytes()));
        assert_eq!(named, Named { number, text }, "{label:?}");
    }
    for own in [0, 1, 2, 40] {
        for shared in [0, 1, 2, 40] {
            let [note, sheet] = defined(own, shared);
            let texts = Texts {
                note: note.as_bytes(),
                sheet: sheet.as_bytes(),
            };
            compare_enquiries(texts, &Need::of(texts));
        }
    }
}

/// The library's answer, both tables and the page, with enough lent.
fn library(texts: Texts) -> (entries::Rendering, [Vec<u32>; 2], Vec<u8>) {
    let mut tables = [vec![0; 1_024], vec![0; 1_024]];
    let mut page = vec![0; 8_192];
    let [definitions, spans] = &mut tables;
    let answer = entries::render(
        texts.note,
        texts.sheet,
        false,
        definitions,
        spans,
        &mut page,
    );
    (answer, tables, page)
}

/// A sheet that defines only labels that the note defines too changes no span row and no byte of the page.
#[test]
fn sheets_of_hidden_definitions() {
    let mut compared = 0;
    for index in 0..20_000 {
        let chance = &mut random::chance(index);
        let note = grammar::note(chance);
        let texts = Texts::alone(&note);
        let need = Need::of(texts);
        if need.page == 0 || need.definitions.is_empty() {
            continue;
        }
        let labels = need.definitions.iter().map(|row| label_of(texts, row));
        let hidden = labels.flat_map(|label| [b"[", label, b"]: /hidden 'h'\n"].concat());
        let sheet: Vec<u8> = hidden.collect();
        let (old, [_, old_spans], old_page) = library(texts);
        let (new, [_, new_spans], new_page) = library(Texts {
            note: &note,
            sheet: &sheet,
        });
        assert_eq!((old.number, new.number), (0, 0), "{}", texts.shown());
        assert_eq!(new.definitions, 2 * old.definitions, "{}", texts.shown());
        assert!(old_spans == new_spans, "{}", texts.shown());
        assert!(old_page == new_page, "{}", texts.shown());
        compared += 1;
    }
    assert!(compared > 1_000, "{compared} notes");
}

/// The two texts are only read, so they may be the same memory, or overlap: the answer is that for copies.
#[test]
fn texts_that_share_their_memory() {
    let memory = [NOTE, SHEET, NOTE].concat();
    let length = memory.len();
    for (start, end) in [(0, length), (0, NOTE.len()), (3, length - 5), (12, 40)] {
        for (from, to) in [
            (0, length),
            (start, end),
            (start, end - 1),
            (start + 1, end),
            (9, 60),
        ] {
            let shared = Texts {
                note: &memory[start..end],
                sheet: &memory[from..to],
            };
            let [note, sheet] = [shared.note, shared.sheet].map(<[u8]>::to_vec);
            let copies = Texts {
                note: &note,
                sheet: &sheet,
            };
            assert_eq!(library(shared), library(copies));
            compare_both(copies.note, copies.sheet, start as u64);
            for label in [b"a".as_slice(), b"b", &memory[from + 1..from + 2]] {
                let wanted = second::resolve(&note, &sheet, label);
                let given = entries::resolve(shared.note, shared.sheet, label);
                assert_eq!(given, compare::enquiry(&wanted));
            }
        }
    }
}

/// Sheets by chance are what they are said to be: some define a label of the note, some are refused.
#[test]
fn sheets_by_chance() {
    let [mut shared, mut refused, mut longest] = [0; 3];
    for index in 0..40_000 {
        let chance: &mut Chance = &mut random::chance(index);
        let (note, sheet) = sheets::beside(grammar::note, chance);
        let answer = second::read(&note, &sheet, false, usize::MAX, usize::MAX);
        refused += usize::from(answer.text == 1);
        longest += usize::from(sheet.len() == LONGEST_NOTE);
        let rows = answer.definition_rows.unwrap_or_default();
        let uses = |row: &second::SpanRow| row[5] > 0 && rows[row[5] as usize - 1][0] == 1;
        shared += usize::from(answer.span_rows.is_some_and(|spans| spans.iter().any(uses)));
    }
    assert!(shared > 2_000, "{shared} use the sheet");
    assert!(refused > 400, "{refused} are refused");
    assert!(longest > 2, "{longest} of the longest size");
}
