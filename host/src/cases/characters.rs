//! Characters: good and bad bytes, escapes, what the page writes otherwise.

use super::Case;

pub fn cases() -> Vec<Case> {
    [
        well_formed(),
        ill_formed(),
        control_bytes(),
        escapes(),
        hrefs(),
        texts(),
        code(),
    ]
    .into_iter()
    .flatten()
    .collect()
}

/// Each row of the table of UTF-8 at its edges.
const WELL_FORMED: [&[u8]; 14] = [
    b"\xc2\x80",
    b"\xdf\xbf",
    b"\xe0\xa0\x80",
    b"\xe0\xbf\xbf",
    b"\xec\xbf\xbf",
    b"\xed\x80\x80",
    b"\xed\x9f\xbf",
    b"\xee\x80\x80",
    b"\xef\xbf\xbf",
    b"\xf0\x90\x80\x80",
    b"\xf0\xbf\xbf\xbf",
    b"\xf3\xbf\xbf\xbf",
    b"\xf4\x80\x80\x80",
    b"\xf4\x8f\xbf\xbf",
];

/// Every way to miss it, and the two bytes that no note has.
const ILL_FORMED: [&[u8]; 39] = [
    b"\x00",
    b"\x0d",
    b"\x80",
    b"\xbf",
    b"\xc0",
    b"\xc0\x80",
    b"\xc1\xbf",
    b"\xc2",
    b"\xc2\x41",
    b"\xc2\xc2",
    b"\xdf\xc0",
    b"\xe0",
    b"\xe0\x80",
    b"\xe0\x9f\xbf",
    b"\xe0\xa0",
    b"\xe0\xa0\x41",
    b"\xe1",
    b"\xe1\x80",
    b"\xed",
    b"\xed\xa0\x80",
    b"\xed\xbf\xbf",
    b"\xef",
    b"\xef\xbf",
    b"\xf0",
    b"\xf0\x8f\xbf\xbf",
    b"\xf0\x90",
    b"\xf0\x90\x80",
    b"\xf0\x90\x80\x41",
    b"\xf4",
    b"\xf4\x8f",
    b"\xf4\x90",
    b"\xf4\x90\x80\x80",
    b"\xf5\x80\x80\x80",
    b"\xf8\x88\x80\x80",
    b"\xf8\x88\x80\x80\x80",
    b"\xfb",
    b"\xfc\x84\x80\x80\x80\x80",
    b"\xfe",
    b"\xff",
];

fn well_formed() -> Vec<Case> {
    let case = |bytes: &[u8]| {
        let note = [b"[a](b", bytes, b")"].concat();
        Case::of(format!("good bytes {}", bytes.escape_ascii()), note).rows(1, 1)
    };
    WELL_FORMED.map(case).into()
}

fn ill_formed() -> Vec<Case> {
    let mut cases = Vec::new();
    for bytes in ILL_FORMED {
        let name = format!("bad bytes {}", bytes.escape_ascii());
        let last = [b"[a]: b\n\n\xc3\xa9 ", bytes].concat();
        let first = [bytes, b" [a](b)"].concat();
        cases.extend([
            Case::of(format!("{name} and more"), first).rows(1, 1),
            Case::of(name, last).rows(1, 1),
        ]);
    }
    let after_all = [b"[a]: b\n\n".as_slice(), &[b'['; 1_025], b"\r"].concat();
    cases.extend([
        Case::of("a bad byte after all else, no rows lent", after_all).rows(0, 0),
        Case::of("a bad byte, then ill-formed bytes", b"ab\rc\xff"),
        Case::of("ill-formed bytes, then a bad byte", b"ab\xffc\0"),
    ]);
    cases
}

/// The control characters that a note may have.
fn control_bytes() -> Vec<Case> {
    let controls: Vec<u8> = (1..32).filter(|byte| *byte != b'\r').chain([127]).collect();
    let note = [b"[", controls.as_slice(), b"](a) `", &controls, b"`"].concat();
    vec![Case::of("control characters", note)]
}

/// A backslash before each ASCII character, in text, label, destination and title.
fn escapes() -> Vec<Case> {
    let case = |character: char| {
        let note = format!(
            "[a\\{character}b]: <c\\{character}d> \"e\\{character}f\"\n\ng\\{character}h [a\\{character}b]"
        );
        Case::of(format!("backslash before {character:?}"), note)
    };
    ascii().map(case).collect()
}

/// The ASCII characters that a note may have.
fn ascii() -> impl Iterator<Item = char> {
    ('\u{1}'..='\u{7f}').filter(|character| *character != '\r')
}

/// Every byte that a destination can hold.
fn hrefs() -> Vec<Case> {
    let plain = |character: &char| !"\n<>\\".contains(*character);
    let ascii: String = ascii().filter(plain).collect();
    let following: String = ('\u{80}'..='\u{bf}').collect();
    let two = (0xc2..=0xdf).map(|lead: u32| (lead & 0x1f) << 6);
    let three = [0x800]
        .into_iter()
        .chain((0xe1..=0xef).map(|lead: u32| (lead & 0xf) << 12));
    let four = [0x1_0000]
        .into_iter()
        .chain((0xf1..=0xf4).map(|lead: u32| (lead & 7) << 18));
    let leading: String = two
        .chain(three)
        .chain(four)
        .filter_map(char::from_u32)
        .collect();
    let case = |(name, bytes): (&str, String)| {
        Case::of(name, format!("[a](<{bytes}>)")).page(6 * bytes.len() + 60)
    };
    [
        (
            "a destination of every ASCII character",
            ascii + "\\<\\>\\\\",
        ),
        ("a destination of every byte that follows", following),
        ("a destination of every byte that leads", leading),
    ]
    .map(case)
    .into()
}

fn texts() -> Vec<Case> {
    let texts = [
        "a & b < c > d \"e\" 'f'",
        "\\& \\< \\> \\\" \\\\ \\a",
        "[a & \\< `>`](b)",
    ];
    let mut cases: Vec<Case> = texts
        .map(|text| Case::of(format!("text {text:?}"), text))
        .into();
    let targets = [
        "/a b",
        "<a b>",
        "/ä?x=1&y=2#z",
        "-_.~!*'();:@=+$,/?%#",
        "<[]^`{|}\"\\>",
        "\\*\\&\\\\",
        "%20%zz",
        "/a \"b & \\\"c\\\" <d>\"",
        "/a 'b\nc'",
        "/a (b 'c' \"d\")",
    ];
    for target in targets {
        let note = format!("[t]({target})\n\n[d]: {target}\n\n[d]");
        cases.push(Case::of(format!("written target {target:?}"), note));
    }
    cases
}

/// The content of code spans.
fn code() -> Vec<Case> {
    let texts = [
        "`` ` `` ` a ` `  a  ` ` ` `\n`",
        "`a\nb\n` `\na\n` `&<>\"\\`",
        "`  ` `   ` ` a` `b ` `\na ` ` a\n`",
        "`\ta\t` ` a\t` `\n\n",
        "`\u{a0}a\u{a0}` ` \u{a0} `",
    ];
    texts
        .map(|text| Case::of(format!("code {text:?}"), text))
        .into()
}
