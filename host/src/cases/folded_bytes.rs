//! Labels of any bytes that are compared by folding, and labels of the longest size and beyond it.

use super::labels::pair;
use super::Case;

pub fn cases() -> Vec<Case> {
    let equal = EQUAL.iter().map(|(a, b)| pair("equal by folding", a, b));
    let unequal = UNEQUAL
        .iter()
        .map(|(a, b)| pair("unequal by folding", a, b));
    let mut cases: Vec<Case> = equal.chain(unequal).collect();
    cases.extend([999, 1_000].into_iter().flat_map(longest_labels));
    cases.extend(long_comparisons());
    cases
}

/// Bytes that stand in no character stand for themselves, and the characters beside them are folded.
pub const EQUAL: &[(&[u8], &[u8])] = &[
    // A lead byte before a character, and at the end.
    (b"\xce\xce\x91", b"\xce\xce\xb1"),
    (b"\xc3\xc3\x89", b"\xc3\xc3\xa9"),
    (b"\xd0\x96\xd0", b"\xd0\xb6\xd0"),
    (b"\xc3A", b"\xc3a"),
    (b"\xd0 \xd0\x96", b"\xd0\n\xd0\xb6"),
    (b"\xc5S", b"\xc5\xc5\xbf"),
    // Continuation bytes before and after one.
    (b"\x80\xce\x91", b"\x80\xce\xb1"),
    (b"\xce\x91\x91", b"\xce\xb1\x91"),
    (b"\xbfA\x80", b"\xbfa\x80"),
    // Characters of three and four bytes cut short.
    (b"\xe2\xce\x91", b"\xe2\xce\xb1"),
    (b"\xe2\x84A", b"\xe2\x84a"),
    (b"\xe2\x84\xd0\x96", b"\xe2\x84\xd0\xb6"),
    (b"\xf0\x9f\x98\xc3\x9f", b"\xf0\x9f\x98ss"),
    // Too long a form, a surrogate, past the last, no byte of any character.
    (b"\xc1\x81A", b"\xc1\x81a"),
    (b"\xe0\x81\x81\xce\x91", b"\xe0\x81\x81\xce\xb1"),
    (b"\xed\xa0\x80\xc3\x9f", b"\xed\xa0\x80SS"),
    (b"\xf4\x90\x80\x80\xc3\x89", b"\xf4\x90\x80\x80\xc3\xa9"),
    (b"\xff\xce\x91\xfe", b"\xff\xce\xb1\xfe"),
    (b"\xce\x91\0\r", b"\xce\xb1\0\r"),
    (b"\xc3\x9f\xc3", b"sS\xc3"),
];

/// Labels that are not equal.
pub const UNEQUAL: &[(&[u8], &[u8])] = &[
    (b"\xce\x91", b"\xce"),
    (b"\xce\x91", b"\xce\xb1\xb1"),
    (b"\xce\xce\x91", b"\xce\xb1"),
    (b"\xce \x91", b"\xce\x91"),
    (b"\xce \x91", b"\xce \xb1"),
    (b"\x91\xce", b"\xce\x91"),
    (b"\xd0\x96\xd0", b"\xd0\xb6"),
    (b"\xd0\x96\xd0", b"\xd0\xb6\xd1"),
    (b"\x80a", b"a"),
    (b"a\xff", b"a\xfe"),
    (b"\xce", b"\xcf"),
    (b"\xc3\x9f\x9f", b"ss"),
    // As Latin-1 they would fold.
    (b"\xc9", b"\xe9"),
    (b"\xdf", b"ss"),
    (b"\x91\xc0", b"\x91\xe0"),
    // An A and a capital alpha in more bytes than they need.
    (b"\xc1\x81", b"a"),
    (b"\xc1\x81", b"\xc1\xa1"),
    (b"\xe0\x8e\x91", b"\xce\xb1"),
    (b"\xe0\x8e\x91", b"\xe0\x8e\xb1"),
    // The first bytes of U+2126, beside those of the omega.
    (b"\xe2\x84", b"\xcf\x89"),
    (b"\xe2\x84\xa6", b"\xe2\x84"),
];

/// Labels of so many characters before folding, which are more after it; and of so many after it.
fn longest_labels(count: usize) -> Vec<Case> {
    let mut cases = Vec::new();
    for several in ["ß", "\u{130}", "\u{390}"] {
        let label = several.repeat(count);
        let note = format!("[{label}]: /u\n\n[{label}] [t][{label}]");
        let name = format!("label of {count} characters {several:?}");
        cases.push(Case::of(name, note));
    }
    let letters = "s".repeat(count);
    let half = "ß".repeat(count / 2) + &"S".repeat(count % 2);
    let name = format!("label of {count} characters after folding");
    let defined = |label: &str, rest: String| Case::of(&name, format!("[{label}]: /u\n\n{rest}"));
    cases.extend([
        defined(&half, format!("[{letters}] [{half}]")).asking(&letters),
        defined(&letters, format!("[{half}][] [t][{letters}]")).asking(&half),
    ]);
    let name = format!("enquiry for {count} characters that fold to twice as many");
    let sheet = format!("[{}]: /s", "ß".repeat(count));
    let case = Case::of(name, "[ß]: /n").beside(sheet);
    let asked = ["ß", "ss"].map(|letters| letters.repeat(count));
    cases.extend(asked.map(|label| case.clone().asking(label)));
    cases
}

/// The comparison has no limit.
fn long_comparisons() -> Vec<Case> {
    let lengths = [999, 1_000, 5_000].into_iter();
    let cases = lengths.flat_map(|count| {
        let [ss, sharp, small, capital] = ["SS", "ß", "ж", "Ж"].map(|letter| letter.repeat(count));
        let last = "ж".repeat(count - 1);
        [
            (sharp.clone(), ss.clone()),
            (sharp, ss + "s"),
            (small.clone(), capital.clone()),
            (small, last.clone() + "з"),
            (capital, last),
        ]
        .map(|(a, b)| Case::of(format!("labels by folding, of {count} characters"), a).asking(b))
    });
    cases.collect()
}
