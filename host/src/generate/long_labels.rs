//! Labels of the longest size, each beside one that is equal to it and one that differs in a single
//! character, and equal ones in letters of each kind: what comparing them takes is measured.

use crate::second::LONGEST_LABEL;

/// Three labels: the equal one reads otherwise where it can, and the unequal one differs from the equal
/// one in one character.
pub struct LongLabels {
    pub name: &'static str,
    pub own: String,
    pub equal: String,
    pub unequal: String,
}

impl LongLabels {
    /// The character at `place` is another in the unequal label.
    fn of(name: &'static str, own: String, equal: String, place: usize, other: char) -> LongLabels {
        let characters = equal.chars().enumerate();
        LongLabels {
            name,
            unequal: characters
                .map(|(at, own)| if at == place { other } else { own })
                .collect(),
            own,
            equal,
        }
    }
}

/// The characters over and over, up to so many of them.
fn cycled(characters: &str, count: usize) -> String {
    characters.chars().cycle().take(count).collect()
}

/// Labels of each kind. The unequal one differs in the first character that is no blank.
pub fn all() -> Vec<LongLabels> {
    let whole = |characters: &str| cycled(characters, LONGEST_LABEL);
    let both = |name, own: &str, equal: &str, other| {
        LongLabels::of(name, whole(own), whole(equal), 0, other)
    };
    // So many blanks, and then letters.
    let led =
        |count: usize, blanks: &str| cycled(blanks, count) + &cycled("rate", LONGEST_LABEL - count);
    let blanks =
        |name, count| LongLabels::of(name, led(count, " "), led(count, "\n \t"), count, 'x');
    let trailing = cycled("rate", LONGEST_LABEL - 9) + &cycled("\t ", 9);
    vec![
        both("one byte", "a", "a", 'b'),
        both("two bytes", "\u{e9}", "\u{e9}", '\u{e8}'),
        both("three bytes", "\u{20ac}", "\u{20ac}", '\u{20ad}'),
        both("four bytes", "\u{1f600}", "\u{1f600}", '\u{1f601}'),
        both("case", "RATE", "rate", 'x'),
        both("Cyrillic", "темп", "темп", 'ш'),
        both("Cyrillic case", "ТЕМП", "темп", 'ш'),
        both("ß and ss", "ßss", "ssß", 'x'),
        both("words", "max rate ", "Max\nRate\t", 'x'),
        blanks("7 leading blanks", 7),
        blanks("40 leading blanks", 40),
        blanks("100 leading blanks", 100),
        LongLabels::of("9 blanks, led and trailing", led(9, " "), trailing, 0, 'x'),
    ]
}

/// Two equal labels, of which one has the most characters.
pub struct Letters {
    pub name: &'static str,
    pub one: String,
    pub other: String,
}

/// The same characters twice, or in the other case, Latin and then Cyrillic; and one that folds to two others.
pub fn in_letters() -> [Letters; 5] {
    let whole = |characters: &str| cycled(characters, LONGEST_LABEL);
    let of = |name, one: &str, other: &str| Letters {
        name,
        one: whole(one),
        other: whole(other),
    };
    [
        of("Latin, the same bytes", "rate", "rate"),
        of("Latin, other case", "rate", "RATE"),
        of("Cyrillic, the same bytes", "темп", "темп"),
        of("Cyrillic, other case", "темп", "ТЕМП"),
        Letters {
            name: "ß, and SS for each",
            one: whole("ß"),
            other: "SS".repeat(LONGEST_LABEL),
        },
    ]
}

/// Labels of letters. The unequal one differs at `place`.
pub fn differing_at(place: usize) -> LongLabels {
    let [own, equal] = [(); 2].map(|()| cycled("rate", LONGEST_LABEL));
    LongLabels::of("letters", own, equal, place, 'x')
}
