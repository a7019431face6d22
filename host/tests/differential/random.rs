//! Random notes, alone and beside random sheets, some of many repeats and some of images inside each other, and
//! every short note over a few marks.

use crate::compare::Texts;
use crate::shrink::shrunk;
use crate::trial::{self, Tally};
use host::generate::alphabets::ALPHABETS;
use host::generate::chance::Chance;
use host::generate::{grammar, images, repeats, sheets};

/// How many random notes there are alone, and how many beside a sheet, and the seed, if the environment names
/// no other.
const NOTES: u64 = 600_000;
const SEED: u64 = 1;

/// How many there are alone.
pub fn notes() -> u64 {
    setting("NOTICE_DIFFERENTIAL_NOTES", NOTES)
}

/// The numbers by chance for the trial with this index.
pub fn chance(index: u64) -> Chance {
    Chance::from_seed(seed().wrapping_mul(1_000_000_007).wrapping_add(index))
}

pub fn seed() -> u64 {
    setting("NOTICE_DIFFERENTIAL_SEED", SEED)
}

fn setting(name: &str, otherwise: u64) -> u64 {
    match std::env::var(name) {
        Ok(value) => value
            .parse()
            .unwrap_or_else(|_| panic!("{name} is no number: {value}")),
        Err(_) => otherwise,
    }
}

/// Compares so many notes of one maker.
fn run(
    maker: &str,
    notes: u64,
    tally: &mut Tally,
    make: impl Fn(&mut Chance) -> (Vec<u8>, Vec<u8>),
) {
    for index in 0..notes {
        let chance = &mut chance(index);
        let (note, sheet) = make(chance);
        let texts = Texts {
            note: &note,
            sheet: &sheet,
        };
        let variant = chance.number();
        let compared = trial::compare(texts, variant, tally);
        if let Err(what) = compared {
            let place = format!("seed {}, {maker}, note {index}", seed());
            report(&place, texts, variant, &what);
        }
    }
}

/// Prints a difference, and again for the texts cut down, and fails.
pub fn report(place: &str, texts: Texts, variant: u64, what: &str) -> ! {
    let again = |note: &[u8], sheet: &[u8]| {
        trial::compare(Texts { note, sheet }, variant, &mut Tally::default())
    };
    let sheet = shrunk(texts.sheet, |shorter| again(texts.note, shorter).is_err());
    let note = shrunk(texts.note, |shorter| again(shorter, &sheet).is_err());
    let still = again(&note, &sheet).expect_err("texts that differ");
    panic!(
        "{place}\nnote \"{}\"\nsheet \"{}\"\n{what}\n\ncut down to \"{}\" and \"{}\"\n{still}",
        texts.note.escape_ascii(),
        texts.sheet.escape_ascii(),
        note.escape_ascii(),
        sheet.escape_ascii()
    );
}

/// Where enough notes were run, every answer came up.
fn settle(tally: &Tally, notes: u64) {
    if notes >= NOTES / 3 {
        tally.assert_all_came_up(100);
    }
}

fn settle_sheets(tally: &Tally, notes: u64) {
    settle(tally, notes);
    if notes >= NOTES / 3 {
        tally.assert_sheets_came_up(100);
    }
}

#[test]
fn notes_from_the_alphabets() {
    let notes = notes() / 3 * 2;
    let mut tally = Tally::default();
    for alphabet in ALPHABETS {
        let share = notes / ALPHABETS.len() as u64;
        run(alphabet.name, share, &mut tally, |chance| {
            (alphabet.note(chance), Vec::new())
        });
    }
    settle(&tally, notes);
}

#[test]
fn notes_from_the_grammar() {
    let notes = notes() / 3;
    let mut tally = Tally::default();
    run("grammar", notes, &mut tally, |chance| {
        (grammar::note(chance), Vec::new())
    });
    settle(&tally, notes);
}

#[test]
fn notes_from_the_alphabets_beside_sheets() {
    let notes = notes() / 3 * 2;
    let mut tally = Tally::default();
    for alphabet in ALPHABETS {
        let share = notes / ALPHABETS.len() as u64;
        let name = format!("{} beside sheets", alphabet.name);
        run(&name, share, &mut tally, |chance| {
            sheets::beside(|chance| alphabet.note(chance), chance)
        });
    }
    settle_sheets(&tally, notes);
}

#[test]
fn notes_from_the_grammar_beside_sheets() {
    let notes = notes() / 3;
    let mut tally = Tally::default();
    run("grammar beside sheets", notes, &mut tally, |chance| {
        sheets::beside(grammar::note, chance)
    });
    settle_sheets(&tally, notes);
}

#[test]
fn notes_of_repeats() {
    let notes = notes() / 3;
    let mut tally = Tally::default();
    run("repeats", notes, &mut tally, repeats::texts);
    tally.assert_stopped(notes as usize / 40);
}

#[test]
fn notes_of_images() {
    let notes = notes() / 3;
    let mut tally = Tally::default();
    run("images", notes, &mut tally, |chance| {
        (images::note(chance), Vec::new())
    });
    run("images beside sheets", notes / 2, &mut tally, |chance| {
        sheets::beside(images::note, chance)
    });
    tally.assert_images(notes as usize / 10);
}

/// Brackets of both sorts up to the limit: each takes the second reader long.
#[test]
fn notes_of_deep_images() {
    let notes = notes() / 300;
    let mut tally = Tally::default();
    run("deep images", notes, &mut tally, |chance| {
        (images::deep(chance), Vec::new())
    });
    tally.assert_deep(notes as usize / 20);
}

/// Every text of up to `most` bytes of the marks, behind `start`, with its index.
pub fn every_text(
    start: &'static [u8],
    marks: &'static [u8],
    most: u32,
) -> impl Iterator<Item = (u64, Vec<u8>)> {
    (0..=most).flat_map(move |length| {
        (0..marks.len().pow(length)).map(move |index| {
            let mut text = start.to_vec();
            let mut rest = index;
            for _ in 0..length {
                text.push(marks[rest % marks.len()]);
                rest /= marks.len();
            }
            (index as u64, text)
        })
    })
}

/// Every such text as a note.
pub fn every_note(start: &'static [u8], marks: &'static [u8], most: u32) {
    let mut tally = Tally::default();
    for (variant, note) in every_text(start, marks, most) {
        let texts = Texts::alone(&note);
        if let Err(what) = trial::compare(texts, variant, &mut tally) {
            report("every short note", texts, variant, &what);
        }
    }
}

#[test]
fn every_short_paragraph() {
    every_note(b"[a]: b\n\n", b"![]()a`\\", 5);
    every_note(b"[a]", b"![]()<>a\" \n\\", 4);
}

#[test]
fn every_short_definition() {
    every_note(b"", b"[]:a \n\\", 5);
    every_note(b"[a]:", b"<>b\"() \n\\", 4);
}
