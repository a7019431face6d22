//! What is lent: tables and pages of every size near the need, and the order of refusals.

use super::named::WHOLE_EXAMPLE;
use super::{Case, DEFINITION_ROOM, SPAN_ROOM};
use crate::second::{DEFINITION_ROW_WIDTH, SPAN_ROW_WIDTH};

const THREE: &str = "[a]: /1 \"t\"\n[b]: <2>\n[c]: 3\n\n";

pub fn cases() -> Vec<Case> {
    [tables(), refusals(), many_rows(), pages()]
        .into_iter()
        .flatten()
        .collect()
}

fn tables() -> Vec<Case> {
    let note = format!("{THREE}[a] `x` [t][b]");
    let definitions = near_three_rows(DEFINITION_ROW_WIDTH).map(|lent| {
        Case::of(format!("three definitions, {lent} numbers lent"), &note)
            .tables(lent, 3 * SPAN_ROW_WIDTH + 3)
    });
    let spans = near_three_rows(SPAN_ROW_WIDTH).map(|lent| {
        Case::of(format!("three spans, {lent} numbers lent"), &note)
            .tables(3 * DEFINITION_ROW_WIDTH + 2, lent)
    });
    definitions.into_iter().chain(spans).collect()
}

/// Numbers of a table: nothing, a part of a row, whole rows and one number less or more, many rows.
pub(super) fn near_three_rows(width: usize) -> [usize; 12] {
    let row = |count: usize| count * width;
    [
        0,
        1,
        row(1) - 1,
        row(1),
        row(2) - 1,
        row(2),
        row(3) - 1,
        row(3),
        row(3) + 1,
        row(4) - 1,
        row(4),
        row(10),
    ]
}

/// Two definition rows and all but one number of the third, and a part of a span row.
fn two_and_a_part(case: Case) -> Case {
    case.tables(3 * DEFINITION_ROW_WIDTH - 1, SPAN_ROW_WIDTH - 1)
}

/// Notes for which more than one refusal applies.
fn refusals() -> Vec<Case> {
    let deep = "[".repeat(1_025);
    vec![
        two_and_a_part(Case::of("too few of both", format!("{THREE}[a]"))),
        two_and_a_part(Case::of(
            "too few definition rows and too deep",
            format!("{THREE}{deep}"),
        )),
        Case::of(
            "too deep and too few span rows",
            format!("{THREE}[a] {deep}"),
        )
        .tables(3 * DEFINITION_ROW_WIDTH, SPAN_ROW_WIDTH - 1),
        Case::of(
            "too deep, definition rows held",
            format!("{THREE}[a] {deep}"),
        )
        .tables(4 * DEFINITION_ROW_WIDTH + 1, 2 * SPAN_ROW_WIDTH + 5),
        Case::of("too few span rows and too short a page", "[a]: b\n\n[a]")
            .tables(DEFINITION_ROW_WIDTH, SPAN_ROW_WIDTH - 1)
            .page(0),
        Case::of("too deep and too short a page", deep)
            .rows(0, 0)
            .page(0),
        Case::of(
            "too few definition rows and too short a page",
            "[a]: b\n\n[a]",
        )
        .tables(DEFINITION_ROW_WIDTH - 1, SPAN_ROW_WIDTH)
        .page(0),
    ]
}

fn many_rows() -> Vec<Case> {
    let long = format!("[a]: /{}\n\n{}", "ä".repeat(300), "[a] ".repeat(12));
    let paragraphs = "[a]: /b\n\n".to_string() + &"x [a] `c`\n\n".repeat(50);
    let mixed = "[a]: /b \"t\"\nx [a]\n\n`c` [d](e)\n\n[a][] f";
    let mut cases = most_rows();
    cases.extend([
        Case::of("spans of many paragraphs", paragraphs)
            .tables(DEFINITION_ROW_WIDTH, 100 * SPAN_ROW_WIDTH + 5)
            .page(2_200),
        Case::of("a long destination, referred to often", long)
            .rows(1, 12)
            .page(30_000),
        Case::of("rows of three paragraphs", mixed)
            .rows(1, 5)
            .page(400),
    ]);
    cases
}

/// As many rows as there is room for, and one more than that.
fn most_rows() -> Vec<Case> {
    let definitions = DEFINITION_ROOM / DEFINITION_ROW_WIDTH;
    let spans = SPAN_ROOM / SPAN_ROW_WIDTH;
    let defined = |count: usize| {
        let name = format!("{count} definitions, {definitions} rows lent");
        Case::of(name, "[a]: /b\n".repeat(count)).rows(definitions, 0)
    };
    let code = |count: usize| {
        let name = format!("{count} spans, {spans} rows lent");
        let case = Case::of(name, "`a` ".repeat(count)).rows(0, spans);
        // `<code>a</code> ` for each.
        case.page(15 * count + 100)
    };
    vec![
        defined(definitions),
        defined(definitions + 1),
        code(spans),
        code(spans + 1),
    ]
}

/// The page of the whole example has 51 bytes.
fn pages() -> Vec<Case> {
    let mut cases: Vec<Case> = [0, 1, 50, 51, 52, 60]
        .map(|lent| {
            Case::of(
                format!("the whole example, {lent} bytes lent"),
                WHOLE_EXAMPLE,
            )
            .page(lent)
        })
        .into_iter()
        .map(|case| case.rows(1, 1))
        .collect();
    cases.extend([
        Case::of("empty note, no page lent", "").rows(0, 0).page(0),
        Case::of("definitions alone, no page lent", "[a]: b\n")
            .rows(1, 0)
            .page(0),
    ]);
    cases
}
