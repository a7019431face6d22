//! Long runs of backticks, of blanks and of brackets, at the lengths where the library goes another way.

use crate::compare::{self, Texts};
use crate::named::{compare_long, compare_long_note, must};

/// So many backticks.
fn ticks(count: usize) -> String {
    "`".repeat(count)
}

#[test]
fn runs_of_backticks() {
    for n in [
        1, 2, 15, 31, 32, 33, 255, 256, 1_022, 1_023, 1_024, 1_025, 4_096,
    ] {
        let run = ticks(n);
        let longer = ticks(n + 1);
        let notes = [
            format!("{run}a{run}"),
            format!("{run}a{longer}"),
            // A run that nothing closes, before runs that close each other.
            format!("{longer}a{run}b{run}c{run}"),
            format!("{run}a{longer}b{longer}c{longer}{longer}"),
            // After an escape a run is shorter than the maximal one.
            format!("\\{longer}a{run}"),
            format!("\\{longer}a\\{longer}b{run}c\\{longer}"),
            format!("{longer}\n\n{run}a{run}\n\n{longer}b\\{run}c{longer}"),
        ];
        for note in notes {
            compare_long_note(note.as_bytes());
        }
    }
}

#[test]
fn runs_of_backticks_in_short_paragraphs() {
    for size in 20..45 {
        for piece in ["`", "``\\", "`a``", "\\``", "``a`", "[`](b)", "```a``b`"] {
            let mut note = piece.repeat(size / piece.len());
            note += &"x".repeat(size - note.len());
            compare_long_note(format!("{note}\n\n{note}`\n\n`{note}").as_bytes());
        }
    }
}

#[test]
fn brackets_near_the_limit() {
    for n in [1, 2, 63, 64, 65, 1_022, 1_023, 1_024, 1_025, 1_026] {
        let [open, close] = ["[", "]"].map(|bracket| bracket.repeat(n));
        let notes = [
            format!("{open}a{close}"),
            format!("{open}a](b){close}"),
            format!("{open}`]`\\]a{close}]"),
            format!("{open}]{open}"),
            format!("[a]: b\n\n{}a{}", "[x ".repeat(n), "][a] ".repeat(n)),
            // Brackets that an earlier paragraph left open, and closing ones of a later one.
            format!("{open}\n\n{close}"),
            format!("{open}\n\n[a](b){close}\n\n]{open}](c)\n\n{close}{open}"),
            format!("[a]: b\n\n{open}\n\n{open}a{close}\n\n[a]{close}{open}"),
        ];
        for note in notes {
            compare_long_note(note.as_bytes());
        }
    }
}

#[test]
fn blanks_in_labels() {
    for count in 0..70 {
        let spaces = " ".repeat(count);
        let mixed: String = " \t \t\t".chars().cycle().take(count).collect();
        for inner in [&spaces, &mixed] {
            let note = format!(
                "[{inner}A{inner}b{inner}]: /u\n\n[a b] [ab] [a{inner}B] [{inner} a\tb{inner}]\n"
            );
            let texts = Texts::alone(note.as_bytes());
            compare_long(texts);
            for label in [
                format!("{inner}a b"),
                format!("a{inner}b"),
                format!("a\n{inner}\nb\n{inner}"),
                format!("a{inner}\u{b}{inner}b"),
                format!("{inner}\u{c}a b"),
            ] {
                must(texts, compare::resolve(texts, label.as_bytes()));
            }
        }
    }
}
