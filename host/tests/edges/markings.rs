//! Markings.

use super::{check, page, spans};
use host::second::SpanRow;

#[test]
fn bracketed_space_after_a_shortcut() {
    check(
        "[foo][ ]\n\n[foo]: /u",
        &[[0, 11, 14, 17, 19, 0, 0, 3]],
        &[[5, 0, 5, 1, 4, 1, 17, 19, 0, 0, 1]],
        "<p><a href=\"/u\">foo</a>[ ]</p>\n",
    );
    check(
        "[foo][]\n\n[foo]: /u",
        &[[0, 10, 13, 16, 18, 0, 0, 3]],
        &[[4, 0, 7, 1, 4, 1, 16, 18, 0, 0, 1]],
        "<p><a href=\"/u\">foo</a></p>\n",
    );
}

#[test]
fn readings_that_look_right() {
    // "Falling back to `[foo]` in `[foo][bar]` when bar is undefined."
    check(
        "[foo]: /u\n\n[foo][bar]",
        &[[0, 1, 4, 7, 9, 0, 0, 1]],
        &[],
        "<p>[foo][bar]</p>\n",
    );
    // "Keeping the outer link of two nested ones."
    check(
        "[a [b](c)](d)",
        &[],
        &[[2, 3, 9, 4, 5, 0, 7, 8, 0, 0, 1]],
        "<p>[a <a href=\"c\">b</a>](d)</p>\n",
    );
    // "Letting a `]` inside backticks close a link."
    check(
        "[a`](b)`",
        &[],
        &[[1, 2, 8, 3, 7, 0, 0, 0, 0, 0, 1]],
        "<p>[a<code>](b)</code></p>\n",
    );
    // "Taking the last definition of a label."
    check(
        "[a]: b\n[A]: c\n\n[ a ]",
        &[[0, 1, 2, 5, 6, 0, 0, 1], [0, 8, 9, 12, 13, 0, 0, 2]],
        &[[5, 15, 20, 16, 19, 1, 5, 6, 0, 0, 4]],
        "<p><a href=\"b\"> a </a></p>\n",
    );
    // "Undoing escapes before comparing labels".
    check(
        "[foo!]: /u\n\n[foo\\!]",
        &[[0, 1, 5, 8, 10, 0, 0, 1]],
        &[],
        "<p>[foo!]</p>\n",
    );
    // "Ending a backtick string inside a longer run."
    check(
        "`a``b`",
        &[],
        &[[1, 0, 6, 1, 5, 0, 0, 0, 0, 0, 1]],
        "<p><code>a``b</code></p>\n",
    );
    check("`a``", &[], &[], "<p>`a``</p>\n");
}

#[test]
fn inline_tails() {
    let none: [SpanRow; 0] = [];
    assert_eq!(spans("[a](<b>\"t\")"), none);
    assert_eq!(spans("[a](b \"t\" u)"), none);
    assert_eq!(spans("[a](b(c)"), none);
    // The longest run is judged as it is: `(b` has a parenthesis open.
    assert_eq!(spans("[a]((b )"), none);
    assert_eq!(spans("[a](b( 't')"), none);
    assert_eq!(spans("[a](<b\nc>)"), none);
    assert_eq!(spans("[a] (b)"), none);
    assert_eq!(spans("[a]( \t)"), [[2, 0, 7, 1, 2, 0, 0, 0, 0, 0, 1]]);
    assert_eq!(spans("[a](<>)"), [[2, 0, 7, 1, 2, 0, 5, 5, 0, 0, 1]]);
    assert_eq!(spans("[](b)"), [[2, 0, 5, 1, 1, 0, 3, 4, 0, 0, 1]]);
    assert_eq!(spans("[a](\"t\")"), [[2, 0, 8, 1, 2, 0, 4, 7, 0, 0, 1]]);
    assert_eq!(
        spans("[a](\nb\n'\\''\n)"),
        [[2, 0, 13, 1, 2, 0, 5, 6, 8, 10, 1]]
    );
    assert_eq!(spans("[a](b (c))"), [[2, 0, 10, 1, 2, 0, 4, 5, 7, 8, 1]]);
    assert_eq!(spans("[a](b(c))"), [[2, 0, 9, 1, 2, 0, 4, 8, 0, 0, 1]]);
    // "For a tail, what follows the closing bracket is read on its own": backticks mean nothing.
    assert_eq!(spans("[a](`b)`"), [[2, 0, 7, 1, 2, 0, 4, 6, 0, 0, 1]]);
    // Where no inline tail stands, a reference may.
    assert_eq!(
        spans("[a](b c)\n\n[a]: d"),
        [[5, 0, 3, 1, 2, 1, 15, 16, 0, 0, 1]]
    );
}

#[test]
fn rows_in_increasing_order_of_end() {
    check(
        "[x `y`](z) `w`",
        &[],
        &[
            [1, 3, 6, 4, 5, 0, 0, 0, 0, 0, 1],
            [2, 0, 10, 1, 6, 0, 8, 9, 0, 0, 1],
            [1, 11, 14, 12, 13, 0, 0, 0, 0, 0, 1],
        ],
        "<p><a href=\"z\">x <code>y</code></a> <code>w</code></p>\n",
    );
}

#[test]
fn places_count_bytes() {
    check(
        "é[ö](ü 'ß')",
        &[],
        &[[2, 2, 15, 3, 5, 0, 7, 9, 11, 13, 1]],
        "<p>é<a href=\"%C3%BC\" title=\"ß\">ö</a></p>\n",
    );
}

#[test]
fn pairs_of_brackets() {
    // The closing bracket pairs over the balanced ones between.
    check(
        "[a [b] c](d)",
        &[],
        &[[2, 0, 12, 1, 8, 0, 10, 11, 0, 0, 1]],
        "<p><a href=\"d\">a [b] c</a></p>\n",
    );
    check(
        "[a [b](c)",
        &[],
        &[[2, 3, 9, 4, 5, 0, 7, 8, 0, 0, 1]],
        "<p>[a <a href=\"c\">b</a></p>\n",
    );
    check("a](b)", &[], &[], "<p>a](b)</p>\n");
    check(
        "][a](b)",
        &[],
        &[[2, 1, 7, 2, 3, 0, 5, 6, 0, 0, 1]],
        "<p>]<a href=\"b\">a</a></p>\n",
    );
    // An escaped bracket is none.
    check("\\[a](b)", &[], &[], "<p>[a](b)</p>\n");
    // A link in the text stops every pair around it, however far out.
    check(
        "[[[a](b)](c)](d)",
        &[],
        &[[2, 2, 8, 3, 4, 0, 6, 7, 0, 0, 1]],
        "<p>[[<a href=\"b\">a</a>](c)](d)</p>\n",
    );
}

#[test]
fn text_that_is_no_label() {
    // Code may hold what a label may not.
    let define = "[a]: b\n\n";
    assert_eq!(
        spans(&format!("{define}[`]`]")),
        [[1, 9, 12, 10, 11, 0, 0, 0, 0, 0, 3]]
    );
    // A text with brackets is no label, but the text inside may be.
    assert_eq!(
        spans(&format!("{define}[[a]][c]")),
        [[5, 9, 12, 10, 11, 1, 5, 6, 0, 0, 3]]
    );
    assert_eq!(
        spans(&format!("{define}[[a]]")),
        [[5, 9, 12, 10, 11, 1, 5, 6, 0, 0, 3]]
    );
    // A label may hold an escaped bracket inside code.
    assert_eq!(
        spans("[`\\]`]: b\n\n[`\\]`]"),
        [
            [1, 12, 16, 13, 15, 0, 0, 0, 0, 0, 3],
            [5, 11, 17, 12, 16, 1, 8, 9, 0, 0, 3]
        ]
    );
}

#[test]
fn code_spans() {
    let code = |inside: &str| format!("<p><code>{inside}</code></p>\n");
    assert_eq!(page("`` a ``"), code("a"));
    assert_eq!(page("`  a  `"), code(" a "));
    assert_eq!(page("` a`"), code(" a"));
    assert_eq!(page("`  `"), code("  "));
    assert_eq!(page("` `"), code(" "));
    assert_eq!(page("`\na\n`"), code("a"));
    assert_eq!(page("`a\n b`"), code("a  b"));
    assert_eq!(page("`\t a\t`"), code("\t a\t"));
    assert_eq!(page("`\\`"), code("\\"));
    assert_eq!(page("`<&>\"`"), code("&lt;&amp;&gt;&quot;"));
    // From the piece's start, to a maximal run.
    assert_eq!(page("\\``a`"), "<p>`<code>a</code></p>\n");
    assert_eq!(page("\\`a`"), "<p>`a`</p>\n");
    assert_eq!(page("`a\\``"), "<p>`a``</p>\n");
    assert_eq!(page("```a``b```"), code("a``b"));
    assert_eq!(page("```a`b`"), "<p>```a<code>b</code></p>\n");
    // Each paragraph starts afresh.
    assert_eq!(page("`a\n\nb`"), "<p>`a</p>\n<p>b`</p>\n");
}
