//! The cases that the gate runs the program `samples` on, and what they tell apart.

use std::path::Path;

use host::cases::{
    all, comparison, container, enquiry, expected, tables_and_page, Case, DEFINITION_ROOM,
    PAGE_ROOM, SPAN_ROOM, TEXT_ROOM,
};
use host::second::{Reader, Wrong};

/// A file of the program.
fn stored(name: &str) -> Vec<u8> {
    let folder = Path::new(env!("CARGO_MANIFEST_DIR")).join("../crates/samples");
    std::fs::read(folder.join(name)).expect("the file is there")
}

#[test]
fn stored_input_is_the_container_of_the_cases() {
    let cases = all();
    assert!(cases.len() > 1_000, "{} cases", cases.len());
    assert!(
        container(&cases) == stored("stdin"),
        "the container differs"
    );
}

/// The program's own constants say how much it can lend; no case asks for more.
#[test]
fn the_program_has_room_for_every_case() {
    let program = String::from_utf8(stored("src/main.rt")).expect("a program in UTF-8");
    for (name, room) in [
        ("DEFINITION_ROOM", DEFINITION_ROOM),
        ("SPAN_ROOM", SPAN_ROOM),
        ("PAGE_ROOM", PAGE_ROOM),
    ] {
        let line = format!("const {name}: usize = {room};\n");
        assert!(program.contains(&line), "not there: {line}");
    }
    for case in all() {
        assert!(case.definition_numbers <= DEFINITION_ROOM, "{}", case.name);
        assert!(case.span_numbers <= SPAN_ROOM, "{}", case.name);
        assert!(case.page_bytes <= PAGE_ROOM, "{}", case.name);
        let texts = [&case.note, &case.sheet, &case.label];
        let lines = texts.iter().map(|text| text.len() + 1).sum::<usize>();
        assert!(lines <= TEXT_ROOM, "{}", case.name);
    }
}

#[test]
fn stored_output_is_the_second_readers() {
    let output = stored("stdout");
    let mut rest = output.as_slice();
    for (index, case) in all().iter().enumerate() {
        let wanted = expected(Reader::RIGHT, index + 1, case);
        let after = rest.strip_prefix(wanted.as_slice());
        rest = after.unwrap_or_else(|| panic!("case {}, {}", index + 1, case.name));
    }
    assert!(rest.is_empty(), "the stored output has more");
}

/// The parts of what is expected of a case.
const PARTS: [fn(Reader, &Case) -> Vec<u8>; 3] = [tables_and_page, enquiry, comparison];
const TABLES_AND_PAGE: usize = 0;
const ENQUIRY: usize = 1;
const COMPARISON: usize = 2;

/// The parts in which a wrong reading has to show: what is the enquiry's alone in the enquiry, what is the
/// comparison's alone in the comparison, everything else in the tables or the page; what all entries do with the
/// two texts in the enquiry too, and which labels are equal in the enquiry and the comparison too.
fn shows_in(wrong: Wrong) -> &'static [usize] {
    if wrong.is_of_enquiry() {
        return &[ENQUIRY];
    }
    if wrong.is_of_both_texts() {
        return &[TABLES_AND_PAGE, ENQUIRY];
    }
    if wrong.is_of_ill_formed_labels() {
        return &[COMPARISON];
    }
    if wrong.is_of_comparison() {
        return &[TABLES_AND_PAGE, ENQUIRY, COMPARISON];
    }
    &[TABLES_AND_PAGE]
}

/// What the second reader expects of a case, in its parts; the whole is what is stored.
struct Stored<'a> {
    index: usize,
    case: &'a Case,
    parts: [Vec<u8>; 3],
}

impl<'a> Stored<'a> {
    fn of((index, case): (usize, &'a Case)) -> Stored<'a> {
        Stored {
            index: index + 1,
            case,
            parts: PARTS.map(|part| part(Reader::RIGHT, case)),
        }
    }

    /// Whether a wrong reading expects something else of the part.
    fn tells(&self, wrong: Wrong, part: usize) -> bool {
        PARTS[part](Reader::misreading(wrong), self.case) != self.parts[part]
    }

    fn is_by_chance(&self) -> bool {
        self.case.name == "by chance"
    }
}

/// Each wrong reading expects something else than what is stored, of one case at least that is no
/// case by chance, in each part in which it has to show.
#[test]
fn every_wrong_reading_is_told_apart() {
    let cases = all();
    let mut stored: Vec<Stored> = cases.iter().enumerate().map(Stored::of).collect();
    stored.retain(|stored| !stored.is_by_chance());
    // Short texts first: they tell most readings apart, and are quick.
    stored.sort_by_key(|stored| stored.case.note.len() + stored.case.sheet.len());
    let mut missed = Vec::new();
    let all = Wrong::all().into_iter();
    for (wrong, part) in
        all.flat_map(|wrong| shows_in(wrong).iter().map(move |part| (wrong, *part)))
    {
        match stored.iter().find(|stored| stored.tells(wrong, part)) {
            Some(told) => println!("{wrong:?}: case {}, {}", told.index, told.case.name),
            None => missed.push((wrong, part)),
        }
    }
    assert!(missed.is_empty(), "told apart by no case: {missed:?}");
    let kinds = Wrong::kinds();
    println!("{kinds} kinds, {} readings", Wrong::all().len());
    assert!(kinds >= 299, "{kinds} kinds");
}
