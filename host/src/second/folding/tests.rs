//! What characters and labels fold to.

use super::{fold, folded};
use crate::case_folding::characters;
use crate::generate::chance::Chance;
use crate::second::Reader;

/// What a character folds to, itself where no row is about it.
fn folds(character: char) -> String {
    fold(character).map_or_else(|| character.to_string(), str::to_string)
}

/// "U+0391-U+03A1 and U+03A3-U+03AB add 32, U+0410-U+042F add 32, U+0400-U+040F add 80, U+00C0-U+00DE but not
/// U+00D7 add 32, U+03C2 gives U+03C3", and A to Z add 32.
#[test]
fn check_rows() {
    let rows = [
        ('A'..='Z', 32),
        ('\u{c0}'..='\u{d6}', 32),
        ('\u{d8}'..='\u{de}', 32),
        ('\u{391}'..='\u{3a1}', 32),
        ('\u{3a3}'..='\u{3ab}', 32),
        ('\u{400}'..='\u{40f}', 80),
        ('\u{410}'..='\u{42f}', 32),
    ];
    let each = |(range, added)| std::iter::zip(range, std::iter::repeat(added));
    for (character, added) in rows.into_iter().flat_map(each) {
        let wanted = char::from_u32(character as u32 + added);
        assert_eq!(Some(folds(character)), wanted.map(String::from));
    }
    assert_eq!(folds('\u{d7}'), "\u{d7}");
    assert_eq!(folds('\u{3c2}'), "\u{3c3}");
}

/// Those that fold to several.
const SEVERAL: [(char, &str); 6] = [
    ('\u{df}', "ss"),
    ('\u{130}', "i\u{307}"),
    ('\u{149}', "\u{2bc}n"),
    ('\u{1f0}', "j\u{30c}"),
    ('\u{390}', "\u{3b9}\u{308}\u{301}"),
    ('\u{3b0}', "\u{3c5}\u{308}\u{301}"),
];

#[test]
fn six_fold_to_several() {
    let all = characters().map(|character| (character, folds(character)));
    let several = all.filter(|(_, folded)| folded.chars().count() > 1);
    let wanted = SEVERAL.map(|(character, folded)| (character, folded.to_string()));
    assert_eq!(several.collect::<Vec<_>>(), wanted);
}

/// Far from their own place, or to one past the rows.
#[test]
fn characters_that_fold_far() {
    for (character, folded) in [
        ('\u{b5}', "\u{3bc}"),
        ('\u{178}', "\u{ff}"),
        ('\u{17f}', "s"),
        ('\u{1c4}', "\u{1c6}"),
        ('\u{1c5}', "\u{1c6}"),
        ('\u{23a}', "\u{2c65}"),
        ('\u{23e}', "\u{2c66}"),
        ('\u{345}', "\u{3b9}"),
        ('\u{4c0}', "\u{4cf}"),
        ('\u{52e}', "\u{52f}"),
    ] {
        assert_eq!(folds(character), folded);
    }
}

/// "Later characters match themselves", letters too that have a row in the whole file.
#[test]
fn later_characters_fold_to_themselves() {
    let later = ('\u{530}'..='\u{ffff}').chain('\u{10400}'..='\u{10427}');
    for character in later {
        assert_eq!(fold(character), None, "{character:?}");
    }
}

/// No blank folds, and none is what others fold to.
#[test]
fn blanks_stay_and_none_comes_up() {
    for character in characters() {
        let blanks = folds(character).matches([' ', '\t', '\n']).count();
        let is_blank = matches!(character, ' ' | '\t' | '\n');
        assert_eq!(blanks, usize::from(is_blank), "{character:?}");
    }
}

#[test]
fn bytes_of_no_character_stay() {
    let labels: [(&[u8], &[u8]); 9] = [
        (b"\xce\xce\x91", b"\xce\xce\xb1"),
        (b"\xd0\x96\xd0", b"\xd0\xb6\xd0"),
        (b"\x91\xce", b"\x91\xce"),
        (b"\x80\xbfA\xff", b"\x80\xbfa\xff"),
        (b"\xe2\x84\xce\x91", b"\xe2\x84\xce\xb1"),
        (b"\xf0\x9f\x98A", b"\xf0\x9f\x98a"),
        (b"\xc1\x81", b"\xc1\x81"),
        (b"\xed\xa0\x80\xc3\x9f", b"\xed\xa0\x80ss"),
        (b"\xce \x91", b"\xce \x91"),
    ];
    for (label, wanted) in labels {
        assert_eq!(folded(label), wanted, "{}", label.escape_ascii());
    }
}

/// Bytes by chance, mostly of characters that fold, blanks, and parts of characters.
fn bytes(chance: &mut Chance) -> Vec<u8> {
    const PIECES: &[&str] = &[
        "a", "A", "z", "Z", " ", "\t", "\n", "ß", "İ", "ŉ", "ΐ", "Σ", "ς", "ſ", "µ", "Ж", "ж", "Ⱥ",
        "ẞ", "\u{2126}", "😀", "\u{307}",
    ];
    let piece = |chance: &mut Chance| match chance.below(4) {
        0 => vec![chance.below(256) as u8],
        1 => vec![chance.between(0xc2, 0xd4) as u8],
        _ => chance.one_of(PIECES).as_bytes().to_vec(),
    };
    let count = chance.below(20);
    (0..count).flat_map(|_| piece(chance)).collect()
}

#[test]
fn folding_twice_changes_nothing() {
    for character in '\0'..'\u{600}' {
        let once = folded(character.to_string().as_bytes());
        assert_eq!(folded(&once), once, "{character:?}");
    }
    let chance = &mut Chance::from_seed(3);
    for _ in 0..20_000 {
        let label = bytes(chance);
        let once = folded(&label);
        assert_eq!(folded(&once), once, "{}", label.escape_ascii());
        let form = Reader::RIGHT.compared_form(&label);
        let again = Reader::RIGHT.compared_form(&form);
        assert_eq!(again, form, "{}", label.escape_ascii());
    }
}

/// Labels in ASCII have the form that they had where A to Z alone were folded.
#[test]
fn labels_in_ascii_as_before() {
    let chance = &mut Chance::from_seed(4);
    for _ in 0..20_000 {
        let count = chance.below(30);
        let byte = |_| match chance.below(3) {
            0 => chance.one_of(b" \t\n"),
            _ => chance.below(128) as u8,
        };
        let label: Vec<u8> = (0..count).map(byte).collect();
        let lower = label.to_ascii_lowercase();
        let words = lower.split(|byte| b" \t\n".contains(byte));
        let words: Vec<&[u8]> = words.filter(|word| !word.is_empty()).collect();
        let form = Reader::RIGHT.compared_form(&label);
        assert_eq!(form, words.join(&b' '), "{}", label.escape_ascii());
    }
}
