//! Times that are held against each other: the reader and the quick one, and a release and none.

use std::process::ExitCode;

use host::generate::bench_notes::{self, BenchNote};
use host::quick;

use crate::measure::{best_of_tries, best_times, Candidate};
use crate::ours::Lent;
use crate::ROUNDS;

/// The notes on which the reader is held against the quick one, and what it may take, in times of that.
const MEASURED: [&str; 3] = ["references", "backticks", "brackets"];
const MOST_OF_QUICK: f64 = 2.0;
/// The same definitions for a release and for none, and what the first may take, in times of the second.
const RELEASED: [&str; 2] = ["definitions_release", "definitions"];
const MOST_OF_NONE: f64 = 2.0;

/// Prints the ratios, and fails where one is too large.
pub fn run() -> ExitCode {
    println!("Nanoseconds a call, the best of many rounds.\n");
    println!("| what | time | time of the other | ratio | at most |");
    println!("|---|--:|--:|--:|--:|");
    let mut good = true;
    for name in MEASURED {
        let note = named(name);
        let what = format!("reader / quick reader, {name}");
        good &= judge(&what, MOST_OF_QUICK, || reader_and_quick(&note));
    }
    let notes = RELEASED.map(named);
    let what = format!("reader, {}", RELEASED.join(" / "));
    good &= judge(&what, MOST_OF_NONE, || release_and_none(&notes));
    if good {
        return ExitCode::SUCCESS;
    }
    println!("\nOver that: too slow.");
    ExitCode::FAILURE
}

fn named(name: &str) -> BenchNote {
    let mut notes = bench_notes::all().into_iter();
    let note = notes.find(|note| note.name == name);
    note.unwrap_or_else(|| panic!("no note is named {name}"))
}

/// Prints two times and their ratio; whether that is at most so much.
fn judge(what: &str, most: f64, measure: impl Fn() -> [f64; 2]) -> bool {
    let [one, other] = best_of_tries(measure, |[one, other]| one / other <= most);
    let ratio = one / other;
    println!("| {what} | {one:.0} | {other:.0} | {ratio:.2} | {most} |");
    ratio <= most
}

fn reader_and_quick(note: &BenchNote) -> [f64; 2] {
    let mut lent = Lent::for_note(note);
    let mut for_quick = lent.clone();
    let mut quick = quick::Reader::default();
    two_times(
        || lent.read(note),
        || for_quick.read_quickly(&mut quick, note),
    )
}

fn release_and_none([release, none]: &[BenchNote; 2]) -> [f64; 2] {
    let [mut for_release, mut for_none] = [release, none].map(Lent::for_note);
    two_times(|| for_release.read(release), || for_none.read(none))
}

/// The best times of a call of each.
pub fn two_times<A, B>(one: impl FnMut() -> A, other: impl FnMut() -> B) -> [f64; 2] {
    let mut candidates = [Some(Candidate::new(one)), Some(Candidate::new(other))];
    best_times(&mut candidates, ROUNDS).map(|time| time.unwrap_or(f64::INFINITY))
}
