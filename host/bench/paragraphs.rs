//! What a paragraph takes beside a pair of brackets. The tables of a call are lent to each paragraph and not
//! cleared for it, so that it takes little more.

use std::process::ExitCode;

use host::generate::bench_notes::BenchNote;
use host::second::LONGEST_NOTE;

use crate::ours::Lent;
use crate::ratios::two_times;

/// A paragraph, and a pair of brackets that is no link.
const WORDS: [&[u8]; 2] = [b"a\n\n", b"[a] "];
/// What a paragraph may take, in times of the pair.
const MOST: f64 = 2.5;

/// Prints the two times and their ratio, and fails where a paragraph takes too long.
pub fn run() -> ExitCode {
    let [paragraph, pair] = times();
    let ratio = paragraph / pair;
    println!("Nanoseconds of the reader, the best of many rounds. The ratio is at most {MOST}.\n");
    println!("| paragraph | pair of brackets | paragraph / pair |");
    println!("|--:|--:|--:|");
    println!("| {paragraph:.1} | {pair:.1} | {ratio:.2} |");
    if ratio <= MOST {
        return ExitCode::SUCCESS;
    }
    println!("\nOver {MOST}: more is done for each paragraph than reading it.");
    ExitCode::FAILURE
}

/// The reader's time for each of the words, in a note of as many as fit.
fn times() -> [f64; 2] {
    let counts = WORDS.map(|word| LONGEST_NOTE / word.len());
    let notes = [0, 1].map(|place| BenchNote {
        name: "paragraphs",
        bytes: WORDS[place].repeat(counts[place]),
        sheet: Vec::new(),
        release: false,
    });
    let [mut first, mut second] = [0, 1].map(|place| Lent::for_note(&notes[place]));
    let times = two_times(|| first.read(&notes[0]), || second.read(&notes[1]));
    [0, 1].map(|place| times[place] / counts[place] as f64)
}
