//! The notes of the benchmark: plausible notices, and notes that are hard to read quickly.

use super::chance::Chance;
use super::many_labels;
use crate::second::{LONGEST_NOTE, MOST_BRACKETS_OPEN};

/// A note of the benchmark, with its name in the table of figures, the sheet beside it, and whether it is read for
/// a release.
pub struct BenchNote {
    pub name: &'static str,
    pub bytes: Vec<u8>,
    pub sheet: Vec<u8>,
    pub release: bool,
}

impl BenchNote {
    fn of(name: &'static str, note: String, sheet: String) -> BenchNote {
        BenchNote {
            name,
            bytes: note.into_bytes(),
            sheet: sheet.into_bytes(),
            release: false,
        }
    }
}

const WORDS: &[&str] = &[
    "the", "pump", "reads", "its", "own", "limit", "from", "the", "sheet", "named", "here",
    "before", "each", "release", "and", "keeps", "it",
];
const DRUGS: &[&str] = &[
    "heparin", "insulin", "morphine", "propofol", "fentanyl", "oxytocin", "dopamine", "ketamine",
];
const NOTICE_DEFINITIONS: usize = 60;
/// The word of the labels of `references`.
const LIMIT: &str = "limit";
/// Notes of references with the words of the labels that are defined and that are used: they differ in letters
/// alone.
const IN_LETTERS: [(&str, &str, &str); 4] = [
    ("references_latin", LIMIT, LIMIT),
    ("references_case", LIMIT, "LIMIT"),
    ("references_cyrillic", "лимит", "лимит"),
    ("references_cyrillic_case", "лимит", "ЛИМИТ"),
];

/// All notes of the benchmark, the same in every run.
pub fn all() -> Vec<BenchNote> {
    of_size(LONGEST_NOTE)
}

/// Those of references that differ in letters alone.
pub fn in_letters_alone() -> Vec<BenchNote> {
    let mut notes = all();
    notes.retain(|note| IN_LETTERS.iter().any(|(name, ..)| *name == note.name));
    notes
}

/// The same notes for a limit of `most` bytes in place of the longest note: all of them get shorter alike.
pub fn of_size(most: usize) -> Vec<BenchNote> {
    let chance = &mut Chance::from_seed(7);
    let alone = alone(chance, most).into_iter();
    let mut notes: Vec<BenchNote> = alone
        .map(|(name, note)| BenchNote::of(name, note, String::new()))
        .collect();
    let limits = share(500, most);
    notes.push(BenchNote::of(
        "references_sheet",
        references(chance, limits, String::new(), most),
        definitions_of(LIMIT, limits),
    ));
    notes.push(BenchNote {
        release: true,
        ..BenchNote::of("definitions_release", definitions(most), String::new())
    });
    notes.extend(in_letters(chance, most));
    for (name, labels) in many_labels::all(most) {
        let [note, sheet] = of_labels(chance, &labels, most);
        notes.push(BenchNote::of(name, note, sheet));
    }
    notes
}

/// The notes of references in letters of each kind: each to the same definitions, as many as fit in the widest.
fn in_letters(chance: &mut Chance, most: usize) -> [BenchNote; IN_LETTERS.len()] {
    let count = share(500, most);
    let start = |word: &str| definitions_of(word, count) + "\n";
    let words = IN_LETTERS.map(|(_, defined, _)| defined);
    let widest = words
        .into_iter()
        .max_by_key(|word| word.len())
        .unwrap_or_default();
    let numbers = numbers(chance, widest, count, most - start(widest).len());
    IN_LETTERS.map(|(name, defined, used)| {
        let note = with_references(start(defined), used, &numbers);
        BenchNote::of(name, note, String::new())
    })
}

/// A count for the longest note, as it is for a limit of `most` bytes.
fn share(count: usize, most: usize) -> usize {
    count * most / LONGEST_NOTE
}

/// The notes with an empty sheet beside them, for no release.
fn alone(chance: &mut Chance, most: usize) -> Vec<(&'static str, String)> {
    let share = |count: usize| share(count, most);
    let repeated = |piece: &str| piece.repeat(most / piece.len());
    let own = definitions_of(LIMIT, share(500)) + "\n";
    vec![
        ("references", references(chance, share(500), own, most)),
        ("backticks", backticks(most)),
        ("brackets", "[".repeat(share(1_024))),
        ("notice", notice(chance, share(16_000))),
        ("prose", prose(chance, most)),
        ("open_tails", repeated("[a](b")),
        ("nested", nested(share(16))),
        ("stray_close", repeated("a]")),
        ("empty_links", repeated("[]()")),
        ("labels", "[a".repeat(share(900)) + "]"),
        ("angle_tails", repeated("[a](<b")),
        ("title_tails", repeated("[a](b \"")),
        ("escapes", repeated("\\[\\]")),
        ("definitions", definitions(most)),
        ("escaped_ticks", repeated("``\\")),
        ("many_paragraphs", repeated("a\n\n")),
        (
            "deep_parentheses",
            "[a](".to_string() + &"(".repeat(share(8_000)),
        ),
        ("empty_tails", repeated("[](")),
        ("bracket_words", repeated("[a] ")),
        ("deep_text", deep_text(share(1_000), most)),
        ("nested_images", nested_images(share(4))),
        ("image_openings", image_openings(share(8))),
        ("pictures", pictures(chance, share(16_000))),
    ]
}

/// So many definitions, whose labels are the word and a number.
fn definitions_of(word: &str, count: usize) -> String {
    let definition = |number| format!("[{word} {number}]: /q/{number}\n");
    (0..count).map(definition).collect()
}

fn reference(word: &str, number: usize) -> String {
    format!("[{word} {number}]")
}

/// References to so many definitions, after what the note starts with, up to the limit.
fn references(chance: &mut Chance, definitions: usize, note: String, most: usize) -> String {
    let numbers = numbers(chance, LIMIT, definitions, most - note.len());
    with_references(note, LIMIT, &numbers)
}

/// Numbers of definitions by chance, as many as the references to them and what stands between have room for.
fn numbers(chance: &mut Chance, word: &str, definitions: usize, room: usize) -> Vec<usize> {
    let mut numbers = Vec::new();
    let mut length = 0;
    loop {
        let number = chance.below(definitions);
        length += reference(word, number).len() + 1;
        if length > room {
            return numbers;
        }
        numbers.push(number);
    }
}

/// References to these definitions in lines, after what the note starts with.
fn with_references(note: String, word: &str, numbers: &[usize]) -> String {
    in_lines(note, numbers.iter().map(|number| reference(word, *number)))
}

fn in_lines(mut note: String, references: impl Iterator<Item = String>) -> String {
    let mut line = 0;
    for reference in references {
        note += &reference;
        line += reference.chars().count() + 1;
        note += if line > 70 { "\n" } else { " " };
        line %= 71;
    }
    note
}

/// A note and a sheet of definitions of labels that are all as long: as many as fit in the sheet, the others in the note, and
/// references to them by chance, up to the limit.
fn of_labels(chance: &mut Chance, labels: &[String], most: usize) -> [String; 2] {
    let definition = |label: &String| format!("[{label}]:b\n");
    let fit = most / definition(&labels[0]).len();
    let [shared, own] = [&labels[..fit], &labels[fit..]];
    let [sheet, note] = [shared, own].map(|labels| labels.iter().map(definition).collect());
    let note: String = note + "\n";
    let room = (most - note.len()) / (labels[0].len() + 3);
    let references = (0..room).map(|_| format!("[{}]", labels[chance.below(labels.len())]));
    [in_lines(note, references), sheet]
}

/// Backtick runs of every length, so that none has another of its length after it.
fn backticks(most: usize) -> String {
    let mut note = String::new();
    let mut length = 1;
    while note.len() + length < most {
        note += &"`".repeat(length);
        note += "a";
        length += 1;
    }
    note
}

/// A plausible notice of a few pages, up to a line past `length`: definitions, then prose with references, code spans and inline links.
fn notice(chance: &mut Chance, length: usize) -> String {
    plausible(chance, length, notice_word)
}

/// Definitions, then prose of such words, up to a line past `length`.
fn plausible(chance: &mut Chance, length: usize, word: fn(&mut Chance) -> String) -> String {
    let mut note = String::new();
    for number in 0..NOTICE_DEFINITIONS {
        let drug = DRUGS[number % DRUGS.len()];
        note += &format!("[{drug} max {number}]: /q3/{drug}/{number}.pdf \"limits of June\"\n");
    }
    note += "\n";
    while note.len() < length {
        let line: Vec<String> = (0..14).map(|_| word(chance)).collect();
        note += &line.join(" ");
        note += if chance.once_in(5) { "\n\n" } else { "\n" };
    }
    note
}

/// A word of the notice: of a hundred, eight references, three code spans, two inline links.
fn notice_word(chance: &mut Chance) -> String {
    match chance.below(100) {
        0..=7 => {
            let number = chance.below(NOTICE_DEFINITIONS);
            format!("[{} max {number}]", DRUGS[number % DRUGS.len()])
        }
        8..=10 => format!("`{} ml/h`", chance.below(100)),
        11..=12 => format!("[sheet](/sheets/{} \"s\")", chance.below(100)),
        _ => chance.one_of(WORDS).to_string(),
    }
}

/// A notice of pump screens: of a hundred words, six are images, three images in links, two images with links and
/// code spans in their descriptions, six references.
fn pictures(chance: &mut Chance, length: usize) -> String {
    plausible(chance, length, |chance| {
        let number = chance.below(NOTICE_DEFINITIONS);
        let label = format!("{} max {number}", DRUGS[number % DRUGS.len()]);
        match chance.below(100) {
            0..=2 => format!("![{label}]"),
            3..=5 => format!("![screen {number}](/screens/{number}.png \"step {number}\")"),
            6..=8 => format!("[![{label}][]](/large/{number}.html)"),
            9..=10 => format!("![`{number} ml/h`, see [{label}]](/screens/{number}.png)"),
            11..=16 => format!("[{label}]"),
            _ => chance.one_of(WORDS).to_string(),
        }
    })
}

/// Words and spaces alone, one paragraph.
fn prose(chance: &mut Chance, most: usize) -> String {
    let mut note = String::new();
    while note.len() < most {
        note += chance.one_of(WORDS);
        note += " ";
    }
    note.truncate(most);
    note
}

/// Pairs of brackets inside each other, 1,000 deep, so many times.
fn nested(times: usize) -> String {
    let deep = "[".repeat(1_000) + "a" + &"]".repeat(1_000) + " ";
    deep.repeat(times)
}

/// Images inside each other, 1,000 deep, so many times.
fn nested_images(times: usize) -> String {
    let deep = "![".repeat(1_000) + "a" + &"](/p1)".repeat(1_000) + " ";
    deep.repeat(times)
}

/// As many image openings as brackets may be open, in so many paragraphs.
fn image_openings(paragraphs: usize) -> String {
    let paragraph = "![a".repeat(MOST_BRACKETS_OPEN) + "\n\n";
    paragraph.repeat(paragraphs)
}

/// A long text between brackets so deep.
fn deep_text(deep: usize, most: usize) -> String {
    "[".repeat(deep) + &"a".repeat(most - 2 * deep) + &"]".repeat(deep)
}

/// Short definitions and nothing else.
fn definitions(most: usize) -> String {
    let mut note = String::new();
    for number in 0.. {
        let definition = format!("[{number}]:b\n");
        if note.len() + definition.len() > most {
            break;
        }
        note += &definition;
    }
    note
}
