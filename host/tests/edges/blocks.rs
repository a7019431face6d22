//! Blocks and definitions.

use super::check;

#[test]
fn three_and_four_spaces_before_a_definition() {
    check("   [a]: b", &[[0, 4, 5, 8, 9, 0, 0, 1]], &[], "");
    check("    [a]: b", &[], &[], "<p>    [a]: b</p>\n");
    check("\t[a]: b", &[], &[], "<p>\t[a]: b</p>\n");
    check(
        "[a]: b\n   [c]: d",
        &[[0, 1, 2, 5, 6, 0, 0, 1], [0, 11, 12, 15, 16, 0, 0, 2]],
        &[],
        "",
    );
    check(
        "[a]: b\n    [c]: d",
        &[[0, 1, 2, 5, 6, 0, 0, 1]],
        &[],
        "<p>    [c]: d</p>\n",
    );
}

#[test]
fn blocks_and_blank_lines() {
    check("a\n \t\nb\n\n", &[], &[], "<p>a</p>\n<p>b</p>\n");
    check("a \n b\n", &[], &[], "<p>a \n b</p>\n");
    // A form feed and a no-break space make no blank line.
    check(
        "a\n\u{c}\n\u{a0}\nb",
        &[],
        &[],
        "<p>a\n\u{c}\n\u{a0}\nb</p>\n",
    );
    // "Nothing later in a block is a definition."
    check("a\n[b]: c", &[], &[], "<p>a\n[b]: c</p>\n");
    // What is left over after definitions.
    check(
        "[a]: b\nc\n",
        &[[0, 1, 2, 5, 6, 0, 0, 1]],
        &[],
        "<p>c</p>\n",
    );
}

#[test]
fn titles_of_definitions() {
    check("[a]: b 't'", &[[0, 1, 2, 5, 6, 8, 9, 1]], &[], "");
    check("[a]:b\n(t) \t\n", &[[0, 1, 2, 4, 5, 7, 8, 1]], &[], "");
    check("[a]:\n<b>\n\"\n\"", &[[0, 1, 2, 6, 7, 10, 11, 1]], &[], "");
    // "only if that fails": the title fails, the end of line stands.
    check(
        "[a]: b \n'c",
        &[[0, 1, 2, 5, 6, 0, 0, 1]],
        &[],
        "<p>'c</p>\n",
    );
    check("[a]: b 'c' d", &[], &[], "<p>[a]: b 'c' d</p>\n");
    check("[a]: <b>'c'", &[], &[], "<p>[a]: &lt;b&gt;'c'</p>\n");
    check("[a]: b (c(d)", &[], &[], "<p>[a]: b (c(d)</p>\n");
    // From the block's bytes alone.
    check(
        "[a]: b\n'c\n\nd'",
        &[[0, 1, 2, 5, 6, 0, 0, 1]],
        &[],
        "<p>'c</p>\n<p>d'</p>\n",
    );
    // An empty title is present in the row and absent from the page.
    check(
        "[a]: <> \"\"\n\n[a]",
        &[[0, 1, 2, 6, 6, 9, 9, 1]],
        &[[5, 12, 15, 13, 14, 1, 6, 6, 9, 9, 3]],
        "<p><a href=\"\">a</a></p>\n",
    );
}

#[test]
fn destinations_of_definitions() {
    check("[a]:\n\nb", &[], &[], "<p>[a]:</p>\n<p>b</p>\n");
    check("[a]: <b", &[], &[], "<p>[a]: &lt;b</p>\n");
    check("[a]: <b<c>", &[], &[], "<p>[a]: &lt;b&lt;c&gt;</p>\n");
    check("[a]: <b\\>c >", &[[0, 1, 2, 6, 11, 0, 0, 1]], &[], "");
    check("[a]: b(c", &[], &[], "<p>[a]: b(c</p>\n");
    check("[a]: b)c", &[], &[], "<p>[a]: b)c</p>\n");
    check("[a]: b\\(c", &[[0, 1, 2, 5, 9, 0, 0, 1]], &[], "");
    check("[a]: (b(c)d)", &[[0, 1, 2, 5, 12, 0, 0, 1]], &[], "");
    check("[a]: b\u{7f}", &[], &[], "<p>[a]: b\u{7f}</p>\n");
    // A destination may be what looks like a title.
    check("[a]: 'b'", &[[0, 1, 2, 5, 8, 0, 0, 1]], &[], "");
}

#[test]
fn labels_of_definitions() {
    check("[]: a", &[], &[], "<p>[]: a</p>\n");
    check("[ \n\t]: a", &[], &[], "<p>[ \n\t]: a</p>\n");
    check("[a[]: b", &[], &[], "<p>[a[]: b</p>\n");
    check("[a\\]: b", &[], &[], "<p>[a]: b</p>\n");
    check("[a\\\\]: b", &[[0, 1, 4, 7, 8, 0, 0, 1]], &[], "");
    check("[a\nb]: c", &[[0, 1, 4, 7, 8, 0, 0, 1]], &[], "");
    check("[a] : b", &[], &[], "<p>[a] : b</p>\n");
}
