//! The table for people.

/// The figures of one note: best times of a call in nanoseconds, none where there is no library.
pub struct Line {
    pub name: &'static str,
    /// Those of the note and the sheet.
    pub bytes: usize,
    pub answer: u32,
    pub reader: Option<f64>,
    pub page_writer: Option<f64>,
    pub quick: Option<f64>,
    pub second: Option<f64>,
    pub cmark_gfm: Option<f64>,
    pub md4c: Option<f64>,
}

pub fn print_libraries(cmark_gfm: bool, md4c: bool) {
    let found = |is: bool| if is { "found" } else { "not installed" };
    println!("cmark-gfm: {}; md4c: {}", found(cmark_gfm), found(md4c));
    println!("Times in nanoseconds a byte, the best of many rounds. A ratio below 1 is faster.\n");
}

pub fn print_head() {
    println!(
        "| note | bytes | answer | reader | page writer | quick reader | second reader | cmark-gfm | md4c \
         | reader / quick | reader / second | page / second | page / cmark-gfm | page / md4c |"
    );
    println!("|---|--:|--:|--:|--:|--:|--:|--:|--:|--:|--:|--:|--:|--:|");
}

pub fn print(line: &Line) {
    let per_byte = |time: Option<f64>| shown(time.map(|time| time / line.bytes as f64));
    let ratio = |ours: Option<f64>, theirs: Option<f64>| {
        shown(ours.zip(theirs).map(|(ours, theirs)| ours / theirs))
    };
    let cells = [
        line.name.to_string(),
        line.bytes.to_string(),
        line.answer.to_string(),
        per_byte(line.reader),
        per_byte(line.page_writer),
        per_byte(line.quick),
        per_byte(line.second),
        per_byte(line.cmark_gfm),
        per_byte(line.md4c),
        ratio(line.reader, line.quick),
        ratio(line.reader, line.second),
        ratio(line.page_writer, line.second),
        ratio(line.page_writer, line.cmark_gfm),
        ratio(line.page_writer, line.md4c),
    ];
    println!("| {} |", cells.join(" | "));
}

/// Two figures after the point, three where there would be none but zeros.
fn shown(figure: Option<f64>) -> String {
    match figure {
        None => "-".to_string(),
        Some(figure) if figure < 0.1 => format!("{figure:.3}"),
        Some(figure) => format!("{figure:.2}"),
    }
}
