//! Labels that are equal by folding (document 02, request 3), in all entries.

use std::collections::BTreeMap;

use super::{found, page, refused_enquiry, resolve};
use host::case_folding::{characters, rows};
use host::cases::folded_bytes;
use host::cases::folded_texts::CONFLICTS;
use host::cases::folding::{stretches, EQUAL, UNEQUAL};
use host::second::{self, ReadAnswer};

/// Whether two labels are equal to the comparison, in both orders.
fn check_comparison(a: &[u8], b: &[u8], equal: bool) {
    let [one, other] = [a, b].map(|label| label.escape_ascii());
    assert_eq!(second::same_label(a, b), equal, "{one}, {other}");
    assert_eq!(second::same_label(b, a), equal, "{other}, {one}");
}

fn released(note: &str, sheet: &str) -> ReadAnswer {
    second::read(note.as_bytes(), sheet.as_bytes(), true, 1_000, 1_000)
}

/// Whether one label opens the definition of another, for the page writer, the enquiry and a release, the definition
/// in the note or in the sheet.
fn check_texts(defined: &str, label: &str, equal: bool) {
    let definition = format!("[{defined}]: /u");
    let used = format!("[{label}] [t][{label}]");
    let linked = format!("<a href=\"/u\">{label}</a> <a href=\"/u\">t</a>");
    let shown = if equal {
        linked
    } else {
        used.replace('\\', "")
    };
    let wanted = format!("<p>{shown}</p>\n");
    assert_eq!(page(&format!("{definition}\n\n{used}")), wanted);
    let [note_bytes, sheet_bytes] = [&used, &definition].map(String::as_bytes);
    let beside = second::render(note_bytes, sheet_bytes, false, 100, 100, 10_000);
    assert_eq!(beside.page, Some(wanted.into_bytes()), "{used:?}");
    let destination = definition.len() - 2;
    let answer = resolve(definition.as_bytes(), label.as_bytes());
    let opened = found(destination, destination + 2);
    let undefined = refused_enquiry(7, 0);
    assert_eq!(answer, if equal { opened } else { undefined }, "{used:?}");
    let other = format!("[{label}]: /v\n");
    let wanted = if equal { (9, 2) } else { (0, 0) };
    for (note, sheet) in [(format!("{definition}\n{other}"), ""), (definition, &other)] {
        let answer = released(&note, sheet);
        assert_eq!((answer.number, answer.value), wanted, "{note:?} {sheet:?}");
    }
}

fn check(pairs: &[(&str, &str)], equal: bool) {
    for (a, b) in pairs {
        check_comparison(a.as_bytes(), b.as_bytes(), equal);
        check_texts(a, b, equal);
        check_texts(b, a, equal);
    }
}

#[test]
fn equal_by_folding() {
    check(EQUAL, true);
}

#[test]
fn unequal_by_folding() {
    check(UNEQUAL, false);
}

#[test]
fn labels_of_every_row() {
    let all = stretches();
    let characters = all.iter().map(|(own, _)| own.chars().count());
    assert_eq!(characters.sum::<usize>(), 447);
    for (own, folded) in &all {
        check(&[(own, folded)], true);
    }
}

/// Each row in all entries: the character, and what it folds to.
#[test]
fn every_row() {
    let rows = rows();
    assert_eq!(rows.len(), 447);
    for row in rows {
        let own = row.character.to_string();
        check(&[(&own, &row.folded)], true);
    }
}

/// A character that no row is about equals itself, and those that fold to it.
#[test]
fn characters_without_a_row() {
    let rows = rows().into_iter().map(|row| (row.character, row.folded));
    let rows: BTreeMap<char, String> = rows.collect();
    let is_blank = |own: &char| matches!(own, ' ' | '\t' | '\n');
    let others: Vec<char> = characters().filter(|own| !is_blank(own)).collect();
    let without = characters().filter(|own| !rows.contains_key(own));
    let mut pairs = without.flat_map(|own| others.iter().map(move |other| (own, *other)));
    let unlike = pairs.find(|(own, other)| {
        let [a, b] = [own, other].map(char::to_string);
        let equal = own == other || rows.get(other) == Some(&a);
        second::same_label(a.as_bytes(), b.as_bytes()) != equal
    });
    assert_eq!(unlike, None);
    assert_eq!((others.len(), rows.len()), (1_328 - 3, 447));
}

#[test]
fn bytes_of_no_character() {
    for (a, b) in folded_bytes::EQUAL {
        check_comparison(a, b, true);
    }
    for (a, b) in folded_bytes::UNEQUAL {
        check_comparison(a, b, false);
    }
}

/// Destinations and titles are compared as written.
#[test]
fn what_differs_by_folding_alone() {
    for [one, other] in CONFLICTS {
        let note = format!("[a]: {one}\n[a]: {other}");
        let answer = released(&note, "");
        assert_eq!((answer.number, answer.value), (9, 2), "{note:?}");
    }
}

/// Text, code, destinations and titles stand on the page as written.
#[test]
fn nothing_else_is_folded() {
    assert_eq!(
        page("[Ж]: /Ж 'ЖУК'\n\n[ж] Ж ß `Σ` [Ж](/ß 'Σ')"),
        "<p><a href=\"/%D0%96\" title=\"ЖУК\">ж</a> Ж ß <code>Σ</code> \
         <a href=\"/%C3%9F\" title=\"Σ\">Ж</a></p>\n"
    );
}

/// "The 999 limit counts characters before folding."
#[test]
fn labels_of_999_characters_that_fold_to_more() {
    for several in ["ß", "\u{130}", "\u{390}"] {
        let [longest, longer] = [999, 1_000].map(|count| several.repeat(count));
        let note = format!("[{longest}]: /u");
        let answer = |label: &str| resolve(note.as_bytes(), label.as_bytes()).number;
        assert_eq!((answer(&longest), answer(&longer)), (0, 8), "{several}");
    }
    let [one, twice] = ["ß", "ss"].map(|letters| letters.repeat(999));
    let note = format!("[{one}]: /u");
    assert_eq!(resolve(note.as_bytes(), twice.as_bytes()).number, 8);
}
