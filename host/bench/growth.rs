//! How the time grows with the note: each note, with its sheet, at a quarter, at half and at the whole of
//! the longest size.

use std::process::ExitCode;

use host::generate::bench_notes::{self, BenchNote};
use host::second::LONGEST_NOTE;

use crate::measure::{best_of_tries, best_times, Candidate};
use crate::ours::Lent;
use crate::ROUNDS;

/// What a note of twice the size may take, in times of the other.
const MOST: f64 = 2.2;
/// The same where labels are alike: a lookup among twice as many takes a step more.
const MOST_OF_LABELS: f64 = 2.4;
const OF_LABELS: [&str; 2] = ["like_labels", "colliding_labels"];
const SIZES: [usize; 3] = [LONGEST_NOTE / 4, LONGEST_NOTE / 2, LONGEST_NOTE];

/// Prints the growth of the notes that are chosen, and fails where one grows too fast.
pub fn run(chosen: impl Fn(&BenchNote) -> bool) -> ExitCode {
    let notes = SIZES.map(|size| bench_notes::of_size(size));
    println!("Times the time of half the size, the best of many rounds. At most {MOST},");
    println!("and {MOST_OF_LABELS} of {}.\n", OF_LABELS.join(" and "));
    println!("| note | reader, half / quarter | whole / half | page writer, half / quarter | whole / half |");
    println!("|---|--:|--:|--:|--:|");
    let mut good = true;
    for place in 0..notes[0].len() {
        let sizes = [0, 1, 2].map(|size| &notes[size][place]);
        if chosen(sizes[0]) {
            let grown = growth(sizes);
            let cells = grown.map(|times| format!("{times:.2}"));
            println!("| {} | {} |", sizes[0].name, cells.join(" | "));
            let most = most(sizes[0]);
            good &= grown.iter().all(|times| *times <= most);
        }
    }
    if good {
        return ExitCode::SUCCESS;
    }
    println!("\nOver that: grows too fast.");
    ExitCode::FAILURE
}

/// What a step of a note may be.
fn most(note: &BenchNote) -> f64 {
    if OF_LABELS.contains(&note.name) {
        return MOST_OF_LABELS;
    }
    MOST
}

/// The reader's two steps, and the page writer's.
fn growth(notes: [&BenchNote; 3]) -> [f64; 4] {
    let lent = notes.map(Lent::for_note);
    let most = most(notes[0]);
    let good = |times: [f64; 3]| steps(times).iter().all(|step| *step <= most);
    let reader = best_of_tries(|| times(notes, lent.clone(), Lent::read), good);
    let page_writer = best_of_tries(|| times(notes, lent.clone(), Lent::render), good);
    let [first, second] = steps(reader);
    let [third, fourth] = steps(page_writer);
    [first, second, third, fourth]
}

fn steps(times: [f64; 3]) -> [f64; 2] {
    [times[1] / times[0], times[2] / times[1]]
}

/// The best times of a call on each of the notes.
fn times<T>(
    notes: [&BenchNote; 3],
    lent: [Lent; 3],
    call: impl Fn(&mut Lent, &BenchNote) -> T,
) -> [f64; 3] {
    let [mut first, mut second, mut third] = lent;
    let mut candidates = [
        Some(Candidate::new(|| call(&mut first, notes[0]))),
        Some(Candidate::new(|| call(&mut second, notes[1]))),
        Some(Candidate::new(|| call(&mut third, notes[2]))),
    ];
    best_times(&mut candidates, ROUNDS).map(|time| time.unwrap_or(f64::INFINITY))
}
