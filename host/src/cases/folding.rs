//! Labels equal or not by folding (document 02, request 3): one defined and the other used and asked for, and both
//! compared.

use super::labels::pair;
use super::Case;
use crate::case_folding::{self, Row};

pub fn cases() -> Vec<Case> {
    let equal = EQUAL.iter().flat_map(|(a, b)| both_ways(a, b));
    let unequal = UNEQUAL
        .iter()
        .flat_map(|(a, b)| [used(a, b), compared(a, b)]);
    let spaces = NO_SPACES.iter().flat_map(|other| {
        let labels = ["a{}b", "{}a b", "a b{}"].map(|label| label.replace("{}", other));
        labels.map(|label| [used(&label, "a b"), compared(&label, "a b")])
    });
    let stretches = stretches().into_iter().flat_map(|(a, b)| both_ways(&a, &b));
    let spaces = spaces.flatten();
    equal
        .chain(unequal)
        .chain(spaces)
        .chain(stretches)
        .collect()
}

fn both_ways(a: &str, b: &str) -> [Case; 3] {
    [used(a, b), used(b, a), compared(a, b)]
}

/// One label is defined, the other stands in each kind of reference and is asked for.
fn used(defined: &str, label: &str) -> Case {
    let note = format!("[{defined}]: /u\n\n[{label}] [{label}][] [t][{label}]");
    Case::of(format!("{label:?} where {defined:?} is defined"), note).asking(label)
}

fn compared(a: &str, b: &str) -> Case {
    pair("labels by folding", a.as_bytes(), b.as_bytes())
}

/// For each stretch of the rows, up to the code point named, a label of its characters and one of what they fold to.
pub fn stretches() -> Vec<(String, String)> {
    const ENDS: [char; 8] = [
        '\u{80}', '\u{100}', '\u{180}', '\u{250}', '\u{370}', '\u{400}', '\u{480}', '\u{530}',
    ];
    let rows = case_folding::rows();
    let stretch = |end: char| rows.partition_point(|row| row.character < end);
    let ends = ENDS.map(stretch);
    let starts = std::iter::once(0).chain(ends);
    let label = |rows: &[Row]| rows.iter().map(|row| row.character).collect();
    let folded = |rows: &[Row]| rows.iter().map(|row| row.folded.as_str()).collect();
    let parts = starts.zip(ends).map(|(from, to)| &rows[from..to]);
    parts.map(|part| (label(part), folded(part))).collect()
}

/// Labels that are equal, as a person reads the rows.
pub const EQUAL: &[(&str, &str)] = &[
    // Source 002, example 175, and the case of source 003.
    ("ΑΓΩ", "αγω"),
    ("ТОЛПОЙ", "Толпой"),
    // The edges of the check rows.
    ("\u{391}", "\u{3b1}"),
    ("\u{3a1}", "\u{3c1}"),
    ("\u{3a3}", "\u{3c3}"),
    ("\u{3ab}", "\u{3cb}"),
    ("\u{410}", "\u{430}"),
    ("\u{42f}", "\u{44f}"),
    ("\u{400}", "\u{450}"),
    ("\u{40f}", "\u{45f}"),
    ("\u{c0}", "\u{e0}"),
    ("\u{d6}", "\u{f6}"),
    ("\u{d8}", "\u{f8}"),
    ("\u{de}", "\u{fe}"),
    ("É", "é"),
    // Final sigma.
    ("ς", "σ"),
    ("ς", "Σ"),
    ("ΌΣΟΣ", "όσος"),
    // ß and the double s, whole, at each end, between and beside spaces.
    ("ß", "ss"),
    ("ß", "SS"),
    ("ß", "Ss"),
    ("ß", "\u{17f}s"),
    ("\u{17f}\u{17f}", "ß"),
    ("\u{17f}\u{17f}", "SS"),
    ("ßab", "SSAB"),
    ("aßb", "ASSB"),
    ("abß", "ABSS"),
    ("ßß", "sßs"),
    (" ß ", "SS"),
    ("a\tß", "A SS"),
    ("ß\nb", "SS  B"),
    ("Straße", "STRASSE"),
    // The others that fold to several.
    ("\u{130}", "i\u{307}"),
    ("\u{130}", "I\u{307}"),
    ("a\u{130} b", "AI\u{307}\tB"),
    ("\u{149}", "\u{2bc}n"),
    ("\u{149}", "\u{2bc}N"),
    ("\u{1f0}", "j\u{30c}"),
    ("\u{1f0}", "J\u{30c}"),
    ("\u{390}", "\u{3b9}\u{308}\u{301}"),
    ("\u{390}", "\u{399}\u{308}\u{301}"),
    ("\u{390}", "\u{345}\u{308}\u{301}"),
    ("\u{3b0}", "\u{3c5}\u{308}\u{301}"),
    ("\u{3b0}", "\u{3a5}\u{308}\u{301}"),
    // The micro sign, the long s, the iota below; forms of a letter.
    ("\u{b5}", "\u{3bc}"),
    ("\u{b5}", "\u{39c}"),
    ("\u{17f}", "s"),
    ("\u{17f}", "S"),
    ("\u{345}", "\u{3b9}"),
    ("\u{345}", "\u{399}"),
    ("\u{3d0}", "\u{392}"),
    ("\u{3d1}", "\u{3f4}"),
    ("\u{3f9}", "\u{3f2}"),
    ("\u{3ff}", "\u{37d}"),
    ("\u{178}", "\u{ff}"),
    ("\u{1c4}", "\u{1c5}"),
    ("\u{1c5}", "\u{1c6}"),
    ("\u{181}", "\u{253}"),
    ("\u{100}", "\u{101}"),
    ("\u{370}", "\u{371}"),
    ("\u{386}", "\u{3ac}"),
    ("\u{460}", "\u{461}"),
    ("\u{4c0}", "\u{4cf}"),
    ("\u{4c1}", "\u{4c2}"),
    ("\u{500}", "\u{501}"),
    // Two bytes to three.
    ("\u{23a}", "\u{2c65}"),
    ("\u{23e}", "\u{2c66}"),
    // The last of the rows, and later characters beside themselves.
    ("\u{52e}", "\u{52f}"),
    ("\u{531}", "\u{531}"),
    ("\u{1e9e}", "\u{1e9e}"),
    ("\u{2126}", "\u{2126}"),
    ("\u{212a}", "\u{212a}"),
    ("注意 אל", "注意\nאל"),
    ("A\u{a0}b 😀", "a\u{a0}B\t😀"),
    ("×÷", "×÷"),
    // Several scripts in a label.
    ("Доза Ω µg ß", "ДОЗА ω\nΜG SS"),
];

/// Labels that are not.
pub const UNEQUAL: &[(&str, &str)] = &[
    // Later characters match themselves alone.
    ("\u{1e9e}", "ß"),
    ("\u{1e9e}", "ss"),
    ("\u{1e9e}", "SS"),
    ("\u{2126}", "Ω"),
    ("\u{2126}", "ω"),
    ("\u{212a}", "K"),
    ("\u{212a}", "k"),
    ("\u{212b}", "Å"),
    ("\u{212b}", "å"),
    ("\u{531}", "\u{561}"),
    ("\u{1c80}", "\u{432}"),
    ("\u{1fd3}", "\u{390}"),
    ("\u{fb06}", "st"),
    ("\u{ff21}", "\u{ff41}"),
    ("\u{10400}", "\u{10428}"),
    // Characters that no row is about, beside those 32 later.
    ("×", "÷"),
    ("¿", "ß"),
    ("\u{3a2}", "\u{3c2}"),
    ("\u{430}", "\u{450}"),
    // Part of what a character folds to, more than that, and a space in it.
    ("ß", "s"),
    ("ß", "sss"),
    ("ß", "s s"),
    ("ß", "ts"),
    ("ß", "st"),
    ("ßs", "ßß"),
    ("\u{130}", "i"),
    ("\u{130}", "I"),
    ("\u{130}", "\u{307}"),
    ("\u{130}", "i \u{307}"),
    ("\u{149}", "n"),
    ("\u{149}", "'n"),
    ("\u{1f0}", "j"),
    ("\u{390}", "\u{3b9}"),
    ("\u{390}", "\u{3b9}\u{308}"),
    ("\u{390}", "\u{3b9}\u{301}\u{308}"),
    ("\u{390}", "\u{3ca}\u{301}"),
    ("\u{3b0}", "\u{3c5}\u{301}"),
    ("\u{3b0}", "\u{3cb}\u{301}"),
    // Other letters: without a dot, with an accent, of another script, of another sort.
    ("\u{131}", "i"),
    ("\u{131}", "I"),
    ("\u{131}", "\u{130}"),
    ("é", "e"),
    ("é", "e\u{301}"),
    ("\u{451}", "\u{435}"),
    ("\u{3ac}", "\u{3b1}"),
    ("\u{410}", "A"),
    ("\u{39f}", "O"),
    ("\u{b5}", "m"),
    ("\u{133}", "ij"),
    ("ª", "a"),
    ("Ж", "З"),
    ("Толпой", "Толпа"),
    ("ж ж", "жж"),
    // Escapes are not undone.
    ("Ж\\!", "ж!"),
];

/// What is no space in labels: line tabulation, form feed, a separator, next line, no-break space, em space, the
/// wide space.
const NO_SPACES: [&str; 7] = [
    "\u{b}", "\u{c}", "\u{1f}", "\u{85}", "\u{a0}", "\u{2003}", "\u{3000}",
];
