//! The tool and the second reader on many notes.

use host::json::{self, Value};
use host::second;

use crate::compared::{compare, compare_beside};
use crate::run::{notice_bytes, Folder};

const SOURCES: &str = include_str!("../data/examples.json");

/// The notes of the sources' examples.
fn sources() -> Vec<String> {
    let list = json::parse(SOURCES).expect("the file of examples is JSON");
    let list = list.as_array().expect("a list").iter();
    let note = |example: &Value| {
        example
            .get("markdown")
            .and_then(Value::as_str)
            .map(String::from)
    };
    list.map(|example| note(example).expect("a note")).collect()
}

#[test]
fn the_tools_examples() {
    let folder = concat!(env!("CARGO_MANIFEST_DIR"), "/../examples");
    let example =
        |name| std::fs::read_to_string(format!("{folder}/{name}.md")).expect("an example");
    let sheet = example("limits");
    for name in [
        "june",
        "night-shift",
        "pump-library",
        "pump-screens",
        "ward-round",
    ] {
        let note = example(name);
        compare(&note);
        compare_beside(&note, &sheet);
    }
}

#[test]
fn the_sources_examples() {
    let notes = sources();
    assert_eq!(notes.len(), 341);
    let stopped = notes.iter().filter(|note| compare(note)).count();
    assert!(stopped > 0, "some example has definitions that conflict");
}

/// Each example is the sheet of the one before it.
#[test]
fn the_sources_examples_beside_each_other() {
    for pair in sources().windows(2) {
        compare_beside(&pair[0], &pair[1]);
    }
}

#[test]
fn every_character_in_every_part() {
    let odd: Vec<char> = (1..0x100)
        .filter_map(char::from_u32)
        .chain([
            'µ',
            '\u{2028}',
            '\u{202e}',
            '\u{feff}',
            '\u{fffd}',
            '😀',
            '\u{10ffff}',
        ])
        .filter(|character| *character != '\r')
        .collect();
    for c in odd {
        let definitions = format!("[l{c}x]: <d{c}x> \"t{c}x\"\n[L{c}X]: d{c}x 't{c}x'\n\n");
        let paragraph =
            format!("[a{c}x](<d{c}x> (t{c}x)) [y][l{c}x] [l{c}x][] [l{c}x] `c{c}x` ``{c}``\n");
        let images =
            format!("![a{c}x](<d{c}x> (t{c}x)) ![y][l{c}x] ![l{c}x][] ![`{c}`![{c}](e)](f)\n");
        compare(&format!("{definitions}{paragraph}\n{images}"));
        compare_beside(&format!("{paragraph}{images}"), &definitions);
        compare(&format!("[l{c}x]: <d{c}x> 't'\n[L{c}X]: <d{c}x> 't{c}x'\n"));
    }
}

/// Numbers that are the same in every run.
fn numbers() -> impl FnMut() -> usize {
    let mut state: u64 = 0x9e37_79b9_7f4a_7c15;
    move || {
        state ^= state << 13;
        state ^= state >> 7;
        state ^= state << 17;
        (state >> 16) as usize
    }
}

/// What random notes are made of.
const PIECES: [&str; 40] = [
    "[",
    "[",
    "]",
    "]",
    "(",
    ")",
    "<",
    ">",
    "`",
    "``",
    "\\",
    "\n",
    "\n",
    "\n\n",
    " ",
    ":",
    "]: ",
    "a",
    "b",
    "A",
    "é",
    "\"",
    "'",
    "[a]",
    "[b]: x",
    "[A]:  <>",
    "\t",
    "(u)",
    "[]",
    "[a]: y 't'\n",
    "[B]: z\n",
    "\u{1b}",
    "[ß]: v\n",
    "[SS]",
    "[Ж]: w\n",
    "[ж]",
    "![",
    "![a]",
    "](u)",
    "!",
];

fn random_note(next: &mut impl FnMut() -> usize) -> String {
    let count = next() % 40;
    (0..count).map(|_| PIECES[next() % PIECES.len()]).collect()
}

#[test]
fn random_notes() {
    let mut next = numbers();
    for _ in 0..300 {
        compare(&random_note(&mut next));
    }
}

#[test]
fn random_notes_and_sheets() {
    let mut next = numbers();
    for _ in 0..300 {
        let note = random_note(&mut next);
        compare_beside(&note, &random_note(&mut next));
    }
}

/// A few definitions of fewer labels, each said in several ways.
fn random_repeats(next: &mut impl FnMut() -> usize) -> Vec<String> {
    let mut one_of = |choices: [&str; 4]| choices[next() % 4].to_string();
    let mut line = || {
        let label = one_of(["a", " A\t", "a\nb", "A  B"]);
        let destination = one_of(["x", "<x>", "\n  x", "<>"]);
        let title = one_of([" 't'", "\n(t)", " \"t\"", ""]);
        format!("[{label}]: {destination}{title}\n")
    };
    (0..3).map(|_| line()).collect()
}

/// In the note, in the sheet, and some in each; a part of them stops a release.
#[test]
fn random_definitions_of_equal_labels() {
    let mut next = numbers();
    let mut stopped = 0;
    for round in 0..200 {
        let lines = random_repeats(&mut next);
        let (note, sheet) = lines.split_at(round % 4);
        let [note, sheet] = [note, sheet].map(|lines| lines.concat() + "\n[a] [a b]\n");
        stopped += usize::from(compare_beside(&note, &sheet));
    }
    assert!((50..150).contains(&stopped), "{stopped} of 200 stopped");
}

fn random_bytes(next: &mut impl FnMut() -> usize) -> Vec<u8> {
    let alphabet = [256, 128][next() % 2];
    let count = next() % 30;
    (0..count).map(|_| (next() % alphabet) as u8).collect()
}

/// The exit status is the second reader's number, whatever the bytes are.
#[test]
fn any_bytes() {
    let mut next = numbers();
    let mut refused = 0;
    for _ in 0..200 {
        let note = random_bytes(&mut next);
        let wanted = second::read(&note, b"", false, usize::MAX, usize::MAX);
        let status = Some(wanted.number as i32);
        for words in [&["page", "-"][..], &["links", "-"], &["check", "-"]] {
            assert_eq!(notice_bytes(words, &note).status.code(), status, "{note:?}");
        }
        let enquiry = notice_bytes(&["where", "a", "-"], &note);
        let wanted = second::resolve(&note, b"", b"a").number;
        assert_eq!(enquiry.status.code(), Some(wanted as i32), "{note:?}");
        refused += usize::from(status != Some(0));
    }
    assert!((50..150).contains(&refused), "{refused} of 200 refused");
}

/// The same of two texts; the line names the file of the text that the second reader names.
#[test]
fn any_bytes_in_both_texts() {
    let mut next = numbers();
    let folder = Folder::new();
    let mut refused = [0; 2];
    for _ in 0..200 {
        let [note, bytes] = [0, 1].map(|_| random_bytes(&mut next));
        let sheet = folder.write("sheet", &bytes);
        let sheet = sheet.to_str().expect("a plain name");
        let wanted = second::read(&note, &bytes, false, usize::MAX, usize::MAX);
        let ran = notice_bytes(&["check", "--sheet", sheet, "-"], &note);
        let status = Some(wanted.number as i32);
        assert_eq!(ran.status.code(), status, "{note:?} {bytes:?}");
        if status != Some(0) {
            let named = [&b"-:"[..], format!("{sheet}:").as_bytes()][wanted.text].to_vec();
            assert!(ran.stdout.starts_with(&named), "{note:?} {bytes:?}");
            refused[wanted.text] += 1;
        }
    }
    assert!(refused.iter().all(|count| *count > 30), "{refused:?}");
}

/// In the note alone; and with a sheet, from all of them in the sheet to all in the note.
#[test]
fn many_definitions() {
    let lines = (0..400).map(|index| format!("[L{}]: <d{}>\n", index % 150, index % 7));
    let lines: Vec<String> = lines.collect();
    let references = (0..200).map(|index| format!("[l{index}] `{index}`\n"));
    let references: String = references.collect();
    compare(&format!("{}\n{references}", lines.concat()));
    for cut in [0, 100, 250, 400] {
        let (note, sheet) = lines.split_at(cut);
        let note = format!("{}\n{references}", note.concat());
        compare_beside(&note, &sheet.concat());
    }
}
