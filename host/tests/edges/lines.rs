//! Lines: "the line of the label's opening bracket or of the span's start, one more than the LFs before
//! that place in its own text" (document 02, request 9).

use super::{check, definitions, spans};

/// A note with the lines of its definitions and of its spans, in the order of the rows.
fn check_lines(note: &str, of_definitions: &[u32], of_spans: &[u32]) {
    let definitions = definitions(note);
    let lines: Vec<u32> = definitions.iter().map(|[.., line]| *line).collect();
    assert_eq!(lines, of_definitions, "{note:?}");
    let spans = spans(note);
    let lines: Vec<u32> = spans.iter().map(|[.., line]| *line).collect();
    assert_eq!(lines, of_spans, "{note:?}");
}

#[test]
fn the_whole_example_gains_1_and_3() {
    check_lines("[max]: /q2/max \"June\"\n\nUse [max].\n", &[1], &[3]);
}

#[test]
fn lines_count_from_1() {
    check_lines("[a](b)", &[], &[1]);
    check_lines("`a`", &[], &[1]);
    check_lines("[a]: b", &[1], &[]);
    check_lines("\n[a](b)", &[], &[2]);
    check_lines("\n   [a]: b\n", &[2], &[]);
    // Two spans of one line.
    check_lines("a\n[b](c) `d`\n", &[], &[2, 2]);
}

#[test]
fn a_span_has_the_line_of_its_start() {
    check(
        "x\n[a\nb\n](\nc\n)",
        &[],
        &[[2, 2, 13, 3, 7, 0, 10, 11, 0, 0, 2]],
        "<p>x\n<a href=\"c\">a\nb\n</a></p>\n",
    );
    check_lines("`a\nb\nc` `d`", &[], &[1, 3]);
    // The code span ends first, on a later line.
    check_lines("[a\n`b`\n](c)", &[], &[2, 1]);
    // LFs in a text, a title and a code span.
    check_lines("[a\nb](c 'd\ne') `f\ng` [h](i)", &[], &[1, 3, 4]);
}

#[test]
fn blank_lines_and_earlier_paragraphs_count() {
    check_lines("[a](b)\n\n\n[c](d)\n \t\n \n`e`", &[], &[1, 4, 7]);
    check_lines("a\n\nb\nc [d](e)\n\n\n", &[], &[4]);
    check_lines("\n \n\t\n`a`", &[], &[4]);
}

#[test]
fn a_definition_has_the_line_of_its_bracket() {
    check_lines("[a]: b\n[c]: d\n\n\n[e]: f", &[1, 2, 5], &[]);
    check_lines("[a\nb]:\n/u\n't\nu'\n[c]: d\n\n[c]", &[1, 6], &[8]);
    check_lines("[\na]: /u\n\n[\na]", &[1], &[4]);
    // What is left over of a block starts on its second line.
    check_lines("[a]: b\n'c' d\n[a]", &[1], &[3]);
}

#[test]
fn a_reference_has_its_own_line() {
    check_lines("[a]: b\n\n\n[a]\n[c][a] [a][]", &[1], &[4, 5, 5]);
    check_lines("[a]\n[c][a]\n\n[a]: b", &[4], &[1, 2]);
}

#[test]
fn brackets_open_over_lines() {
    check_lines("[\n[\n[a](b)\n]\n[c](d)", &[], &[3, 5]);
    check_lines("[\n[a]\n](b)", &[], &[1]);
    check_lines("[\n[\n[\n]]]\n[\n[a\n](b)", &[], &[6]);
    let open = "[\n".repeat(1_024);
    check_lines(&format!("{open}](a)"), &[], &[1_024]);
    let close = "]".repeat(1_023);
    check_lines(&format!("{open}{close}](a)"), &[], &[1]);
    let close = "]".repeat(600);
    check_lines(&format!("{open}{close}](a)\n[b](c)"), &[], &[424, 1_026]);
}

#[test]
fn only_an_lf_ends_a_line() {
    check_lines("a\u{b}\u{c}\u{85}\u{2028}\u{2029}[b](c)", &[], &[1]);
    check_lines("[\u{2028}a]: b\n[\u{c}c]: d", &[1, 2], &[]);
}

#[test]
fn the_most_lines() {
    let lines = "\n".repeat(32_762);
    check(
        &format!("{lines}[a](b)"),
        &[],
        &[[
            2, 32_762, 32_768, 32_763, 32_764, 0, 32_766, 32_767, 0, 0, 32_763,
        ]],
        "<p><a href=\"b\">a</a></p>\n",
    );
    check(
        &format!("{lines}[a]: b"),
        &[[0, 32_763, 32_764, 32_767, 32_768, 0, 0, 32_763]],
        &[],
        "",
    );
    check_lines(&format!("{}[b](c)", "a\n".repeat(16_381)), &[], &[16_382]);
}
