//! Looks for slow notes and sheets: short words, put together in a few ways up to the longest, through
//! the proved reader and page writer, and labels that are hard to compare through the enquiry. Prints the
//! slowest and fails where one takes longer than it may. All of it is for no release. `docs/BENCHMARK.md` says
//! what is measured.
//!
//! `cargo run --release --offline --manifest-path host/Cargo.toml --bin slow_notes [SECONDS]`

mod enquiries;
mod patterns;
mod shapes;
mod slowest;

use std::process::ExitCode;
use std::time::{Duration, Instant};

use host::entries::{self, MOST_DEFINITION_ROWS, MOST_SPAN_ROWS};
use host::second::{DEFINITION_ROW_WIDTH, LONGEST_NOTE, SPAN_ROW_WIDTH};
use patterns::Patterns;
use shapes::{around, defined, definitions, halves, repeated, rising, Shape};
use slowest::{Slow, Slowest};

/// What a note or a sheet may take at most, in nanoseconds a byte: 5 ms for the longest one.
const MOST: f64 = 150.0;
/// One that takes longer than this is timed again, and its best time counts.
const SUSPECT: f64 = 50.0;
const MORE_TRIES: usize = 4;
/// How long the search may take by itself.
const SECONDS: u64 = 1800;

/// The bytes that mean something in a paragraph or a definition, and a letter.
const MARKS: &[u8] = b"![]()<\"\\` a\n:";
/// All ASCII punctuation, two letters, and the blanks.
const ALL: &[u8] = b"!\"#$%&'()*+,-./:;<=>?@[\\]^_`{|}~ab \t\n";
/// What stands between the two ends of a note, and how much of it.
const MIDDLES: [&[u8]; 3] = [b"a", b"\\!", b"`a"];
const AMOUNTS: [usize; 2] = [400, LONGEST_NOTE];
/// What opens pairs of both sorts, and what closes them, with tails and without.
const OPENINGS: [&[u8]; 6] = [b"[", b"![", b"[![", b"![[", b"![a ", b"[a `b`![c "];
const CLOSINGS: [&[u8]; 9] = [
    b"]",
    b"](b)",
    b"](b 'c')",
    b"](b)](c)",
    b"](b)]",
    b"](b",
    b"][]",
    b"][a]",
    b" d](<e f>)",
];
/// The first lengths of rising runs.
const LEASTS: [usize; 3] = [1, 256, 1024];

fn main() -> ExitCode {
    let seconds = std::env::args()
        .nth(1)
        .map_or(Ok(SECONDS), |word| word.parse());
    let Ok(seconds) = seconds else {
        eprintln!("slow_notes: a number of seconds, or nothing");
        return ExitCode::from(2);
    };
    let end = Instant::now() + Duration::from_secs(seconds);
    let mut lent = Lent::for_any_note();
    let mut slowest = Slowest::default();
    let mut tried = 0;
    let words = in_one_word().chain(in_two_words());
    let notes = words.chain(pairs_nested()).chain(rising_runs());
    for shape in notes.chain(sheets()) {
        if Instant::now() > end {
            println!("{tried} notes and sheets in {seconds} seconds: not all");
            return ExitCode::FAILURE;
        }
        slowest.note(lent.time(shape));
        tried += 1;
    }
    println!("All {tried} notes and sheets. The ten slowest, in nanoseconds a byte:\n");
    slowest.print();
    let Some((enquiry, asked)) = enquiries::slowest(end) else {
        println!("\nNot all enquiries in {seconds} seconds");
        return ExitCode::FAILURE;
    };
    println!("\nAll {asked} enquiries. The slowest: {enquiry:.1}");
    if slowest.worst().max(enquiry) > MOST {
        println!("\nOver {MOST}: too slow.");
        return ExitCode::FAILURE;
    }
    ExitCode::SUCCESS
}

/// Every short pattern, over and over: alone, and after definitions.
fn in_one_word() -> impl Iterator<Item = Shape> {
    let all =
        Patterns::new(ALL, 3).filter(|pattern| !pattern.iter().all(|byte| MARKS.contains(byte)));
    let patterns = Patterns::new(MARKS, 4).chain(all);
    patterns.flat_map(|pattern| [repeated(&pattern), defined(&pattern)])
}

/// Two words of up to two bytes: one after the other, and around a text.
fn in_two_words() -> impl Iterator<Item = Shape> {
    patterns::pairs(MARKS, 2).flat_map(|(first, second)| {
        let mut shapes = vec![halves(&first, &second)];
        for middle in MIDDLES {
            shapes.extend(AMOUNTS.map(|bytes| around(&first, middle, bytes, &second)));
        }
        shapes
    })
}

/// Links and images inside each other, around a text.
fn pairs_nested() -> impl Iterator<Item = Shape> {
    OPENINGS.into_iter().flat_map(|open| {
        CLOSINGS.into_iter().flat_map(move |close| {
            let middles = MIDDLES.into_iter();
            middles.flat_map(move |middle| AMOUNTS.map(|bytes| around(open, middle, bytes, close)))
        })
    })
}

/// Runs of each byte, with a word of up to two bytes between them.
fn rising_runs() -> impl Iterator<Item = Shape> {
    MARKS.iter().flat_map(|byte| {
        Patterns::new(MARKS, 2).flat_map(|word| LEASTS.map(|least| rising(*byte, least, &word)))
    })
}

/// Sheets beside an empty note: every short pattern over and over, and definitions of two words.
fn sheets() -> impl Iterator<Item = Shape> {
    let patterns = Patterns::new(MARKS, 4).map(|pattern| repeated(&pattern));
    let pairs = patterns::pairs(MARKS, 2);
    let definitions = pairs.map(|(label, rest)| definitions(&label, &rest));
    patterns.chain(definitions).map(Shape::in_sheet)
}

/// Tables for any note, and no page: the page writer measures the page and does not write it.
struct Lent {
    definitions: Vec<u32>,
    spans: Vec<u32>,
}

impl Lent {
    fn for_any_note() -> Lent {
        Lent {
            definitions: vec![0; MOST_DEFINITION_ROWS * DEFINITION_ROW_WIDTH],
            spans: vec![0; MOST_SPAN_ROWS * SPAN_ROW_WIDTH],
        }
    }

    /// The best times for a note and a sheet.
    fn time(&mut self, shape: Shape) -> Slow {
        let mut best = self.once(&shape);
        for _ in 0..MORE_TRIES {
            if best.0.max(best.1) < SUSPECT {
                break;
            }
            let again = self.once(&shape);
            best = (best.0.min(again.0), best.1.min(again.1));
        }
        Slow {
            name: shape.name,
            reader: best.0,
            page_writer: best.1,
        }
    }

    /// One call of the reader and one of the page writer.
    fn once(&mut self, shape: &Shape) -> (f64, f64) {
        let Shape { note, sheet, .. } = shape;
        let Lent { definitions, spans } = self;
        let start = Instant::now();
        entries::read(note, sheet, false, definitions, spans);
        let middle = Instant::now();
        entries::render(note, sheet, false, definitions, spans, &mut []);
        let end = Instant::now();
        let bytes = (note.len() + sheet.len()) as f64;
        let per_byte = |time: Duration| time.as_nanos() as f64 / bytes;
        (per_byte(middle - start), per_byte(end - middle))
    }
}
