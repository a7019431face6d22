//! Folding in whole texts: which of equal labels is opened, in which text, what conflicts; what is never folded.

use super::release::released;
use super::Case;

pub fn cases() -> Vec<Case> {
    let texts = TEXTS
        .iter()
        .map(|(name, note, sheet)| Case::of(*name, note).beside(sheet));
    let with_each_setting = |case: Case| [released(case.clone()), case];
    let conflicts = CONFLICTS.iter().flat_map(|said| differing(*said));
    let mut cases: Vec<Case> = texts.chain(conflicts).flat_map(with_each_setting).collect();
    cases.extend(enquiries());
    cases
}

/// Two definitions of one label that say this, in a note, and one in each text.
fn differing([one, other]: [&str; 2]) -> [Case; 2] {
    let name = format!("alike but for folding, {one:?} and {other:?}");
    let line = |said: &str| format!("[a]: {said}\n");
    let case = |note: String| Case::of(&name, note + "\n[a]");
    [
        case(line(one) + &line(other)),
        case(line(one)).beside(line(other)),
    ]
}

/// What two definitions say that differs, and would not if it were folded.
pub const CONFLICTS: &[[&str; 2]] = &[
    ["/ж", "/Ж"],
    ["/ß", "/ss"],
    ["<σ>", "<ς>"],
    ["/1 'Жук'", "/1 'жук'"],
    ["/1 'ß'", "/1 'SS'"],
    ["/1 \"\u{b5}\"", "/1 \"\u{3bc}\""],
];

/// A name, a note and a sheet.
const TEXTS: &[(&str, &str, &str)] = &[
    (
        "each kind of reference in other case",
        "[Жгут]: /u 'т'\n\n[жгут] [ЖГУТ][] [т][жГУт] [т][жгуты] [жгуты][] [жгуты]",
        "",
    ),
    (
        "the first of labels equal by folding alone",
        "[ß]: /1\n[SS]: /2\n[\u{17f}s]: /3\n[ss]: /4\n\n[ss] [SS][] [x][\u{17f}S] [ß]",
        "",
    ),
    (
        "repeats that are the same, equal by folding alone",
        "[ß]: /1 't'\n[SS]: </1> \"t\"\n\n[ss]",
        "[\u{17f}S]: /1 (t)",
    ),
    (
        "a conflict by folding, after a repeat",
        "[ΑΓΩ]: /1\n[x]: /2\n[αγω]: /1\n[Αγω]: /3\n\n[αΓω]",
        "",
    ),
    ("the note before the sheet", "[ΑΓΩ]: /n\n\n[αγω] [Αγω][]", "[αγω]: /s"),
    (
        "the sheet alone, each kind of reference",
        "[αγω] [ΑΓΩ][] [x][αγΩ] [αγ]",
        "[ΑΓω]: /s 't'",
    ),
    (
        "a conflict of note and sheet, by folding",
        "[Σ]: /n\n\n[ς] [σ]",
        "[a]: /s\n[ς]: /s",
    ),
    (
        "a conflict in the sheet, by folding",
        "[i\u{307}] [\u{130}]",
        "[\u{130}]: /1\n\ntext\n\n[I\u{307}]: /2",
    ),
    (
        "labels past the rows conflict with no other",
        "[\u{2126}]: /1\n[Ω]: /2\n[\u{212a}]: /3\n[K]: /4\n[\u{1e9e}]: /5\n[ß]: /6\n[\u{531}]: /7\n\
         [\u{561}]: /8\n\n[ω] [k] [ss] [\u{2126}] [\u{212a}] [\u{1e9e}] [\u{561}] [\u{531}]",
        "",
    ),
    (
        "example 548 of source 000, which stays unmet: U+1E9E lies past the rows",
        "[\u{1e9e}]\n\n[SS]: /url",
        "",
    ),
    (
        "nothing else is folded: destination, title, code, text",
        "[Ж]: /ЖУК?ß 'ЖУК ß'\n\n[ж] ЖУК ß \u{130} `ЖУК ß \u{130}` [ЖУК ß](/ЖУК 'ЖУК ß') \
         [`Σ` ß][ж] \\ß",
        "[И]: </ΣΣ> \"ΣΣ\"",
    ),
    (
        "nothing of the sheet is folded either",
        "[и] [И][] [ΣΣ][и]",
        "[И]: </ΣΣ Ж> \"ΣΣ Ж\"\n\nΣΣ Ж",
    ),
    (
        "texts of references as written",
        "[ß]: /u\n\n[SS] [\u{17f}s][] [Ss `SS`][sS]",
        "",
    ),
    (
        "labels over lines",
        "[ЖУК\n и ß]: /u\n\n[жук\tИ SS] [ жук\nи\n\u{17f}\u{17f} ][] [t][ЖУК И ß]",
        "",
    ),
    (
        "escapes in labels beside letters that fold",
        "[Ж\\]ß]: /1\n[Ж\\!]: /2\n[\\Ж]: /3\n\n[ж\\]SS] [ж\\!] [ж!] [\\ж] [ж]",
        "",
    ),
    (
        "no label for its brackets, with letters that fold",
        "[Ж[ß]: /1\n\n[ж[ss] [t][Ж]ß]",
        "",
    ),
];

/// The part that is found is as written, in the note or the sheet.
fn enquiries() -> Vec<Case> {
    let note = "[Доза]: /ДОЗА/ß 'Т'\n[ß]: <Ж Ж>\n\n[доза]";
    let sheet = "[ДОЗА]: /s\n[\u{390}]: /ΐ/Ж\n[Å]: /å\n[\u{2126}]: /2126";
    let labels: [&[u8]; 15] = [
        "доза".as_bytes(),
        " ДОЗА\n".as_bytes(),
        "дозы".as_bytes(),
        b"SS",
        b"s",
        "s\u{17f}".as_bytes(),
        "\u{399}\u{308}\u{301}".as_bytes(),
        "\u{390}\\".as_bytes(),
        "å".as_bytes(),
        "\u{212b}".as_bytes(),
        "Ω".as_bytes(),
        "\u{2126}".as_bytes(),
        b"\xd0\x94\xd0\xbe\xd0\xb7\xd0",
        b"\xce\xce\x91",
        b"\xc1\x93",
    ];
    let case = |label: &[u8]| {
        let name = format!("enquiry for \"{}\"", label.escape_ascii());
        Case::of(name, note).beside(sheet).asking(label)
    };
    labels.map(case).into()
}
