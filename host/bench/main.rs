//! Times the proved reader and page writer on the notes of the benchmark, beside the quick reader, the second reader
//! and, where they are installed, cmark-gfm and md4c. `docs/BENCHMARK.md` says what is measured.
//!
//! `cargo run --release --offline --manifest-path host/Cargo.toml --bin bench -- [--growth] [NOTE...]`
//! `cargo run --release --offline --manifest-path host/Cargo.toml --bin bench -- --labels | --paragraphs | --ratios`

mod comparison;
mod growth;
mod labels;
mod libraries;
mod measure;
mod ours;
mod paragraphs;
mod ratios;
mod table;

use std::process::ExitCode;
use std::time::Duration;

use host::generate::bench_notes::{self, BenchNote};
use host::quick;
use libraries::{CmarkGfm, Md4c};
use measure::{best_times, Candidate, Rounds};
use ours::Lent;
use table::Line;

/// How a note is timed.
const ROUNDS: Rounds = Rounds {
    batch: Duration::from_millis(4),
    most: 25,
};

fn main() -> ExitCode {
    let mut names: Vec<String> = std::env::args().skip(1).collect();
    if names == ["--labels"] {
        return labels::run();
    }
    if names == ["--paragraphs"] {
        return paragraphs::run();
    }
    if names == ["--ratios"] {
        return ratios::run();
    }
    let growth = names.first().is_some_and(|word| word == "--growth");
    if growth {
        names.remove(0);
    }
    let chosen = |note: &BenchNote| names.is_empty() || names.iter().any(|name| name == note.name);
    let notes: Vec<BenchNote> = bench_notes::all().into_iter().filter(chosen).collect();
    if notes.is_empty() {
        eprintln!("bench: no note is named {}", names.join(", "));
        return ExitCode::from(2);
    }
    if growth {
        return growth::run(chosen);
    }
    let cmark_gfm = CmarkGfm::find();
    let md4c = Md4c::find();
    table::print_libraries(cmark_gfm.is_some(), md4c.is_some());
    table::print_head();
    for note in &notes {
        let mut lent = Lent::for_note(note);
        if let Err(what) = lent.check(note) {
            eprintln!("bench: {}: {what}", note.name);
            return ExitCode::FAILURE;
        }
        table::print(&time(note, &mut lent, cmark_gfm.as_ref(), md4c.as_ref()));
    }
    ExitCode::SUCCESS
}

/// The best times of everything there is on one note.
fn time(
    note: &BenchNote,
    lent: &mut Lent,
    cmark_gfm: Option<&CmarkGfm>,
    md4c: Option<&Md4c>,
) -> Line {
    let one_text = &ours::in_one_text(note);
    let answer = lent.answer();
    let [mut for_reader, mut for_quick] = [lent.clone(), lent.clone()];
    let mut quick = quick::Reader::default();
    let mut candidates = [
        Some(Candidate::new(|| for_reader.read(note))),
        Some(Candidate::new(|| lent.render(note))),
        Some(Candidate::new(|| for_quick.read_quickly(&mut quick, note))),
        Some(Candidate::new(|| ours::second(note))),
        cmark_gfm.map(|library| Candidate::new(|| library.page(one_text))),
        md4c.map(|library| Candidate::new(|| library.page(one_text))),
    ];
    let [reader, page_writer, quick, second, cmark_gfm, md4c] = best_times(&mut candidates, ROUNDS);
    Line {
        name: note.name,
        bytes: note.bytes.len() + note.sheet.len(),
        answer,
        reader,
        page_writer,
        quick,
        second,
        cmark_gfm,
        md4c,
    }
}
