//! Refusal 9 among the others: after 1, 2 and 3, before 4, 5 and 6; and what is lent.

use super::lending::near_three_rows;
use super::release::released;
use super::{Case, DEFINITION_ROOM};
use crate::second::{DEFINITION_ROW_WIDTH, LONGEST_NOTE, SPAN_ROW_WIDTH};

pub fn cases() -> Vec<Case> {
    [texts(), rows(), later_refusals(), many()]
        .into_iter()
        .flatten()
        .map(released)
        .collect()
}

const CONFLICT: &str = "[a]: /1\n[a]: /2\n\n";
const REPEAT: &str = "[a]: /1\n[a]: /1\n\n";

/// Refusals 1 and 2 come first, of either text.
fn texts() -> Vec<Case> {
    let long = CONFLICT.to_string() + &"x".repeat(LONGEST_NOTE);
    let bad = CONFLICT.to_string() + "x\r";
    let case = |name: &str, note: &str, sheet: &str| {
        Case::of(name, note).beside(sheet).rows(4, 2).page(60)
    };
    vec![
        case("a conflict in a note too long", &long, ""),
        case("a conflict, then a bad byte", &bad, ""),
        case("a conflict, a sheet too long", CONFLICT, &long),
        case("a conflict, a bad byte in the sheet", CONFLICT, &bad),
        case("a conflict in a sheet too long", "[a]", &long),
        case("a conflict in a sheet with a bad byte", "[a]", &bad),
        case(
            "a conflict with a sheet with a bad byte",
            "[a]: /1",
            "[a]: /2\0",
        ),
        case("repeats, then a bad byte", &bad.replace("/2", "/1"), ""),
    ]
}

/// Refusal 3 comes first: tables of every size near the need, for one text and for two.
fn rows() -> Vec<Case> {
    let texts = [
        ("[a]: /1\n[b]: /2\n[a]: /3\n\n[a] `x` [t][b]", ""),
        ("[a]: /1\n\n[a] `x` [t][b]", "[b]: /2\n[a]: /3"),
        ("[a]: /1\n\n[a] `x` [t][b]", "[b]: /2\n[a]: /1"),
    ];
    let mut cases = Vec::new();
    for (note, sheet) in texts {
        for lent in near_three_rows(DEFINITION_ROW_WIDTH) {
            let name = format!("three definitions, two of a label, {lent} numbers lent");
            let case = Case::of(name, note).beside(sheet);
            cases.push(case.tables(lent, 3 * SPAN_ROW_WIDTH + 3));
        }
    }
    cases
}

/// Refusals 4, 5 and 6 come after it: with a conflict, and with a repeat.
fn later_refusals() -> Vec<Case> {
    let deep = "[".repeat(1_025);
    let mut cases = Vec::new();
    for (what, definitions) in [("a conflict", CONFLICT), ("a repeat", REPEAT)] {
        let note = format!("{definitions}[a] `x`");
        let case = |name: &str, note: &str| Case::of(format!("{what}, {name}"), note);
        cases.extend([
            case("too deep", &format!("{note}{deep}")),
            case("too deep, nothing else lent", &format!("{note}{deep}"))
                .rows(2, 0)
                .page(0),
            case("too few span rows", &note).tables(2 * DEFINITION_ROW_WIDTH, SPAN_ROW_WIDTH),
            case("too short a page", &note).rows(2, 2).page(20),
            case("no span rows and no page", &note).rows(2, 0).page(0),
            case("all too few", &note).rows(1, 1).page(1),
            case("exactly enough", &note).rows(2, 2).page(41),
            case("a byte too few", &note).rows(2, 2).page(40),
        ]);
    }
    cases
}

/// As many definitions of one label as there is room for, of which the last differs or none does.
fn many() -> Vec<Case> {
    let rows = DEFINITION_ROOM / DEFINITION_ROW_WIDTH;
    let repeats = |count: usize| "[a]: /b\n".repeat(count);
    let last = "[A]: /c\n";
    let others: String = (0..rows - 2).map(|k| format!("[{k}]: {k}\n")).collect();
    let notes = [
        ("the last row differs", repeats(rows - 1) + last),
        ("no row differs", repeats(rows)),
        ("the last row differs, one too many", repeats(rows) + last),
        (
            "the second row differs",
            repeats(1) + last + &repeats(rows - 2),
        ),
        (
            "the last row differs from the first",
            format!("[a]: /b\n{others}{last}"),
        ),
        (
            "the last row differs from the one before",
            format!("{others}[a]: /b\n{last}"),
        ),
    ];
    let case = |name: &str, note: String| {
        Case::of(format!("{rows} rows lent, {name}"), note).rows(rows, 0)
    };
    let mut cases: Vec<Case> = notes.map(|(name, note)| case(name, note)).into();
    let sheet = repeats(rows / 2 - 1) + last;
    let both = case("the last row of the sheet differs", repeats(rows / 2));
    cases.push(both.beside(sheet).rows(rows, 0));
    cases
}
