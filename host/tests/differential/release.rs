//! Releases: definitions that conflict, and repeats that do not, in both texts.

use crate::bad::{bad, compare_texts};
use crate::compare::{self, Named, Texts};
use crate::named::{compare_at_every_size, must};
use crate::random::{self, every_text};
use crate::settings;
use crate::trial::{label_of, Need};
use host::generate::repeats;
use host::second::{self, DefinitionRow, LONGEST_NOTE};

/// Texts by chance of many repeats are what they are said to be: releases are stopped by two definitions of the
/// note, by one of each text and by two of the sheet, and many of them pass with repeats.
#[test]
fn repeats_by_chance() {
    let mut stopped = [0; 3];
    let mut passed = 0;
    for index in 0..40_000 {
        let (note, sheet) = repeats::texts(&mut random::chance(index));
        let texts = Texts {
            note: &note,
            sheet: &sheet,
        };
        let answer = second::read(&note, &sheet, true, usize::MAX, usize::MAX);
        let rows = answer.definition_rows.expect("rows, for enough are lent");
        if answer.number == 9 {
            let later = &rows[answer.value - 1];
            let first = &rows[first_equal(texts, &rows, later)];
            stopped[(first[0] + later[0]) as usize] += 1;
        } else {
            let repeats = |(index, row)| first_equal(texts, &rows, row) < index;
            passed += usize::from(rows.iter().enumerate().any(repeats));
        }
    }
    assert!(stopped.iter().all(|count| *count > 1_000), "{stopped:?}");
    assert!(passed > 10_000, "{passed}");
}

/// Where the first row stands that has a label equal to this row's.
fn first_equal(texts: Texts, rows: &[DefinitionRow], own: &DefinitionRow) -> usize {
    let equal = |row| second::same_label(label_of(texts, row), label_of(texts, own));
    let first = rows.iter().position(equal);
    first.expect("a row has its own label")
}

/// The reader for a release, with just the definition rows lent that are needed; what it answers, and how many
/// they are.
fn compare_released(note: &[u8], sheet: &[u8]) -> (u32, usize) {
    let texts = Texts { note, sheet };
    let need = Need::of(texts);
    let exactly = need.exactly();
    must(texts, settings::compare(texts, exactly));
    let named = must(texts, compare::read(texts, true, exactly));
    (named.number, need.definitions.len())
}

/// Every two of the texts as what two definitions say, in one text and in two: how often two definitions stop a
/// release, and how often they pass.
fn compare_every_two(said: &[Vec<u8>]) -> [usize; 2] {
    let mut answers = Vec::new();
    for one in said {
        for other in said {
            let [one, other] = [one, other].map(|said| [b"[a]: ", said.as_slice(), b"\n"].concat());
            let both = [one.as_slice(), &other].concat();
            answers.extend([compare_released(&both, b""), compare_released(&one, &other)]);
        }
    }
    let count = |wanted| answers.iter().filter(|answer| **answer == wanted).count();
    [count((9, 2)), count((0, 2))]
}

/// Every text of up to `most` bytes of the marks.
fn every(marks: &'static [u8], most: u32) -> Vec<Vec<u8>> {
    let texts = every_text(b"", marks, most);
    texts.map(|(_, text)| text).collect()
}

#[test]
fn every_two_short_destinations() {
    let [stopped, passed] = compare_every_two(&every(b"bB<>\\", 3));
    assert!(stopped > 30_000 && passed > 200, "{stopped}, {passed}");
}

#[test]
fn every_two_short_titles() {
    let mut said = vec![b"b".to_vec()];
    for delimiters in [b"''", b"\"\"", b"()"] {
        let [opening, closing] = delimiters.map(|delimiter| [delimiter]);
        let titles = every(b"bB\"\\", 3).into_iter();
        said.extend(titles.map(|title| [b"b ", &opening[..], &title, &closing].concat()));
    }
    let [stopped, passed] = compare_every_two(&said);
    assert!(stopped > 50_000 && passed > 800, "{stopped}, {passed}");
}

/// Up to four definitions of two labels and two destinations, shared out over the two texts in every way.
#[test]
fn every_order_of_few_definitions() {
    let lines = ["[a]: 1\n", "[A]: 2\n", "[b]: 1\n", "[ b ]: 2\n"];
    let mut came_up = [0; 10];
    for list in every(b"\0\x01\x02\x03", 4) {
        let lines: Vec<&str> = list.iter().map(|line| lines[usize::from(*line)]).collect();
        for cut in 0..=lines.len() {
            let [note, sheet] = [&lines[..cut], &lines[cut..]].map(<[&str]>::concat);
            let (number, _) = compare_released(note.as_bytes(), sheet.as_bytes());
            came_up[number as usize] += 1;
        }
    }
    assert!(came_up[0] > 100 && came_up[9] > 500, "{came_up:?}");
}

/// A conflict, and the same texts without one.
const TEXTS: [[&[u8]; 2]; 6] = [
    [b"[a]: /1 't'\n[b]: /2\n[A]: /1 'u'\n\n[a] `c` [t][b]", b""],
    [b"[a]: /1 't'\n[b]: /2\n[A]: /1 't'\n\n[a] `c` [t][b]", b""],
    [b"[a]: /1 't'\n\n[a] `c` [t][b]", b"[b]: /2\n[A]: /1"],
    [b"[a]: /1 't'\n\n[a] `c` [t][b]", b"[b]: /2\n[A]: </1> (t)"],
    [b"[a] `c` [t][b]", b"[a]: /1\n\n[b]: /2 ''\n\nx\n\n[b]: /2"],
    [
        b"[a] `c` [t][b]",
        b"[a]: /1\n\n[b]: /2 ''\n\nx\n\n[b]: /2 ()",
    ],
];

#[test]
fn conflicts_at_every_size() {
    for (index, [note, sheet]) in TEXTS.into_iter().enumerate() {
        let [without, released] = compare_at_every_size(Texts { note, sheet });
        let conflict = index % 2 == 0;
        let wanted = if conflict {
            // Enough rows, and whatever else.
            let enough = [0, 5, 6].map(|number| without[number]);
            (0, enough.iter().sum())
        } else {
            (without[0], 0)
        };
        assert_eq!((released[0], released[9]), wanted, "{released:?}");
        assert_eq!((without[9], without[3]), (0, released[3]));
    }
}

/// Refusals 1 and 2 come first, of either text.
#[test]
fn conflicts_in_texts_that_are_refused() {
    let check = |note: &[u8], sheet: &[u8], number: u32, text: u32| {
        let named = compare_texts(Texts { note, sheet }, b"a");
        assert_eq!(named, Named { number, text });
    };
    let conflict = b"[a]: /1\n[a]: /2\n\n".as_slice();
    for bad in bad() {
        let spoilt = [conflict, &bad].concat();
        check(&spoilt, b"", 2, 0);
        check(conflict, &spoilt, 2, 1);
        check(b"", &spoilt, 2, 1);
    }
    let long = [conflict, &[b'x'; LONGEST_NOTE]].concat();
    check(&long, b"", 1, 0);
    check(conflict, &long, 1, 1);
    check(conflict, b"", 9, 0);
    check(b"", conflict, 9, 0);
}
