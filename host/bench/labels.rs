//! What comparing two labels of the longest size takes: equal ones, and ones that differ in the first
//! character; equal ones in letters of each kind, and what a reference takes in these.

use std::process::ExitCode;

use host::generate::bench_notes;
use host::generate::long_labels;

use crate::comparison::{Times, TimesInLetters, MOST, MOST_IN_CYRILLIC};
use crate::measure::{best_times, Candidate};
use crate::ours::Lent;
use crate::ROUNDS;

/// Prints the tables, and fails where an early difference is not told early, or where Cyrillic letters take too
/// long.
pub fn run() -> ExitCode {
    let early = print_unequal();
    let quick = print_in_letters();
    let right = print_references();
    if early && quick && right {
        return ExitCode::SUCCESS;
    }
    ExitCode::FAILURE
}

/// A line for each kind of label; whether a difference in the first character ends the comparison.
fn print_unequal() -> bool {
    println!("Nanoseconds a comparison, the best of many rounds. The ratio is at most {MOST}.\n");
    println!(
        "| labels of 999 characters | bytes | equal | unequal | turned round | unequal / equal |"
    );
    println!("|---|--:|--:|--:|--:|--:|");
    let mut good = true;
    for labels in long_labels::all() {
        let times = Times::of(&labels, MOST);
        let ratio = times.ratio();
        println!(
            "| {} | {} | {} | {ratio:.3} |",
            labels.name,
            labels.own.len(),
            times.shown().join(" | ")
        );
        good &= ratio <= MOST;
    }
    if !good {
        println!("\nOver {MOST}: the comparison goes on after the first difference.");
    }
    good
}

/// A line for each kind of letters; whether Cyrillic ones are quick enough.
fn print_in_letters() -> bool {
    let labels = long_labels::in_letters();
    let times = TimesInLetters::of(&labels);
    println!("\n| equal labels, the first of 999 characters | bytes | a comparison |");
    println!("|---|--:|--:|");
    for (labels, time) in labels.iter().zip(times.0) {
        let bytes = [&labels.one, &labels.other].map(|label| label.len().to_string());
        println!("| {} | {} | {time:.1} |", labels.name, bytes.join(", "));
    }
    let [same, case] = times.ratios().map(|ratio| format!("{ratio:.2}"));
    println!(
        "\nCyrillic in times of Latin, at most {MOST_IN_CYRILLIC}: {same}, in other case {case}."
    );
    times.are_good()
}

/// A line for each note of references that differ in letters alone; whether the library reads them.
fn print_references() -> bool {
    println!("\n| note | bytes | references | reader, ns a reference |\n|---|--:|--:|--:|");
    let mut good = true;
    for note in bench_notes::in_letters_alone() {
        let mut lent = Lent::for_note(&note);
        if let Err(what) = lent.check(&note) {
            println!("\n{}: {what}", note.name);
            good = false;
            continue;
        }
        let references = lent.spans();
        let mut candidates = [Some(Candidate::new(|| lent.read(&note)))];
        let [time] = best_times(&mut candidates, ROUNDS);
        let each = time.unwrap_or(f64::INFINITY) / references as f64;
        println!(
            "| {} | {} | {references} | {each:.1} |",
            note.name,
            note.bytes.len()
        );
    }
    good
}
