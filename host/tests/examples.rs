//! The examples of the sources and of the standard, and another reader's pages, against the second reader.

use host::second::{self, RenderAnswer};
use host::sources::{examples, pictures, standard_examples, Example, UNMET};

/// The page writer with more lent than any note needs.
fn render(note: &str, sheet: &str, release: bool) -> RenderAnswer {
    let [note, sheet] = [note, sheet].map(str::as_bytes);
    second::render(note, sheet, release, usize::MAX, usize::MAX, usize::MAX)
}

fn page(note: &str) -> String {
    let answer = render(note, "", false);
    assert_eq!(answer.number, second::number::SUCCESS, "{note:?}");
    String::from_utf8(answer.page.expect("a page on success")).expect("a page in UTF-8")
}

/// How many of the sources' examples are met: those of document 01, those of request 3 but for one, and those of
/// request 5 that ask for no other request.
const MET: usize = 229 + 4 + 28;

/// The examples of the sources that are met.
fn met() -> Vec<Example> {
    let mut examples = examples();
    examples.retain(Example::is_met);
    examples
}

#[test]
fn every_example_has_its_place() {
    let examples = examples();
    let count = |status: &str| examples.iter().filter(|e| e.status == status).count();
    assert_eq!(examples.len(), 341);
    assert_eq!(count("base"), 229);
    assert_eq!(count("waiting"), 104);
    assert_eq!(count("out"), 8);
    let in_scope = examples.iter().filter(|e| e.is_in_scope());
    assert_eq!(in_scope.count(), 229 + 5 + 28);
    assert_eq!(met().len(), MET);
    let standard = standard_examples();
    let count = |status: &str| standard.iter().filter(|e| e.status == status).count();
    assert_eq!(standard.len(), 364);
    assert_eq!(count("base"), 181);
    assert_eq!(count("out"), 20);
    assert_eq!(standard.iter().filter(|e| e.is_met()).count(), 181 + 2 + 16);
}

/// Fails where a page is another than the example's.
fn check_pages(examples: &[Example]) {
    let mut failed = Vec::new();
    for example in examples {
        let made = page(&example.note);
        if made != example.page {
            println!(
                "{}: note {:?}\n  wanted {:?}\n  made   {:?}",
                example.name, example.note, example.page, made
            );
            failed.push(&example.name);
        }
    }
    assert!(failed.is_empty(), "{} failed: {failed:?}", failed.len());
}

#[test]
fn pages_of_the_sources_examples() {
    check_pages(&met());
}

#[test]
fn pages_of_the_standards_examples() {
    let mut examples = standard_examples();
    examples.retain(Example::is_met);
    check_pages(&examples);
}

/// What another reader wrote for images by chance, inside each other, in links and around them.
#[test]
fn pages_of_another_reader() {
    let pictures = pictures();
    assert_eq!(pictures.len(), 800);
    let shows = |e: &&Example| e.page.contains("<img");
    assert_eq!(pictures.iter().filter(shows).count(), 639);
    check_pages(&pictures);
}

/// The names of the examples in scope that a request is for, those of the sources and then those of the standard.
fn names_of(request: usize) -> Vec<String> {
    let mut examples = examples();
    examples.extend(standard_examples());
    examples.retain(|example| example.takes(request) && example.is_in_scope());
    let names = examples.into_iter();
    names.map(|example| example.name).collect()
}

/// The examples that folding is for, by their names.
#[test]
fn examples_of_request_3() {
    let wanted = [
        "example 000 548",
        "example 001 526",
        "example 002 175",
        "example 003 13",
        "example 003 51",
        "example GFM 175",
        "example GFM 548",
    ];
    assert_eq!(names_of(3), wanted);
}

/// Those that images are for.
#[test]
fn examples_of_request_5() {
    let numbered = |source: &str, numbers: &[usize]| {
        let name = |number: &usize| format!("example {source} {number}");
        numbers.iter().map(name).collect::<Vec<_>>()
    };
    let lines = [
        904, 909, 911, 927, 929, 931, 933, 936, 939, 943, 950, 954, 960, 972,
    ];
    let wanted = [
        numbered("000", &[525, 528, 539]),
        numbered("001", &[503, 506, 517]),
        numbered("003", &[5, 61, 62, 63, 65, 66, 67, 70]),
        numbered("004 line", &lines),
        numbered("GFM", &[525, 528, 539, 580, 582, 583, 586, 587, 588]),
        numbered("GFM", &[589, 590, 591, 592, 594, 596, 599]),
    ];
    assert_eq!(names_of(5), wanted.concat());
}

/// The page of an example that stays unmet is another: the label is no link, since nothing equals it.
#[test]
fn unmet_examples() {
    let mut examples = examples();
    examples.retain(|example| example.unmet().is_some());
    assert_eq!(examples.len(), UNMET.len());
    for example in examples {
        let why = example.unmet().unwrap_or_default();
        assert!(example.is_in_scope() && !example.is_met(), "{why}");
        assert_ne!(page(&example.note), example.page, "{why}");
    }
    assert_eq!(page("[\u{1e9e}]\n\n[SS]: /url"), "<p>[\u{1e9e}]</p>\n");
}

/// The definitions of an example in a sheet beside the note: the page is the same where no paragraph is left
/// of the sheet's blocks.
#[test]
fn definitions_in_a_sheet_give_the_same_page() {
    let mut run = 0;
    for example in met() {
        let blocks = || example.note.split_inclusive("\n\n");
        let defines = |block: &&str| page(block).is_empty();
        let sheet: String = blocks().filter(defines).collect();
        let note: String = blocks().filter(|block| !defines(block)).collect();
        if sheet.is_empty() {
            continue;
        }
        run += 1;
        let answer = render(&note, &sheet, false);
        let made = answer
            .page
            .map(|page| String::from_utf8(page).expect("UTF-8"));
        assert_eq!(made.as_ref(), Some(&example.page), "{}", example.name);
    }
    assert!(run > 50, "{run} examples");
}

/// The examples with two destinations for one label, which show that the first is opened.
const CONFLICTING: [&str; 3] = ["example 000 552", "example 001 530", "example 002 173"];

#[test]
fn only_conflicting_examples_stop_a_release() {
    let mut stopped = 0;
    for example in met() {
        let answer = render(&example.note, "", true);
        let name = example.name.as_str();
        if CONFLICTING.contains(&name) {
            stopped += 1;
            assert_eq!((answer.number, answer.value), (9, 2), "{name}");
        } else {
            let page = example.page.as_bytes().to_vec();
            assert_eq!((answer.number, answer.page), (0, Some(page)), "{name}");
        }
    }
    assert_eq!(stopped, 3);
}

/// The notes of the examples have no final LF; with one the page is the same.
#[test]
fn a_final_line_feed_changes_no_page() {
    let mut run = 0;
    for example in met() {
        run += 1;
        let note = format!("{}\n", example.note);
        assert_eq!(page(&note), example.page, "{}: {note:?}", example.name);
    }
    assert_eq!(run, MET);
}
