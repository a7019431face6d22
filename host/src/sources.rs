//! The examples of the sources and of the standard, and notes that another reader read, each a note and the page it stands for.

use crate::json::{self, Value};

const SOURCES: &str = include_str!("../tests/data/examples.json");
const STANDARD: &str = include_str!("../tests/data/gfm-0.29-examples.json");
const PICTURES: &str = include_str!("../tests/data/cmark-gfm-images.json");

/// The requests of document 02 that are in force.
pub const IN_FORCE: [usize; 7] = [1, 2, 3, 4, 5, 8, 9];

/// The examples whose page is not given, though no request is missing, and why.
pub const UNMET: [(&str, &str); 1] = [(
    "example 000 548",
    "its label U+1E9E folds to ss by a row past U+052F; \"Later characters match themselves\" (document 02, request 3)",
)];

/// One example.
pub struct Example {
    pub name: String,
    /// `base` if document 01 gives its page, `waiting` if that takes requests of document 02, `out` if it is out of
    /// scope.
    pub status: String,
    /// The requests that it takes.
    needs: Vec<usize>,
    pub note: String,
    pub page: String,
}

impl Example {
    /// Whether it takes a request.
    pub fn takes(&self, request: usize) -> bool {
        self.needs.contains(&request)
    }

    /// Whether it is in scope, with no request missing.
    pub fn is_in_scope(&self) -> bool {
        self.status != "out" && self.needs.iter().all(|request| IN_FORCE.contains(request))
    }

    /// Why its page is not given all the same.
    pub fn unmet(&self) -> Option<&'static str> {
        let unmet = UNMET.iter().find(|(name, _)| *name == self.name);
        unmet.map(|(_, why)| *why)
    }

    /// Whether its page has to be given.
    pub fn is_met(&self) -> bool {
        self.is_in_scope() && self.unmet().is_none()
    }
}

/// Every example of the sources, in the order of the file.
pub fn examples() -> Vec<Example> {
    list(SOURCES).iter().map(example).collect()
}

/// Every example of the standard's sections on inlines and on definitions, in its order.
pub fn standard_examples() -> Vec<Example> {
    list(STANDARD).iter().map(standard_example).collect()
}

/// Notes of images by chance, each with the page that cmark-gfm 0.29.0.gfm.6 gave. They hold only what both read by the same
/// rules, and one code span at most, since it misses some that follow a run of backticks which nothing closes.
pub fn pictures() -> Vec<Example> {
    let numbered = list(PICTURES).into_iter().enumerate();
    numbered.map(|(k, value)| picture(k, &value)).collect()
}

fn list(file: &str) -> Vec<Value> {
    let file = json::parse(file).expect("the file of examples is JSON");
    let list = file.as_array().expect("the file of examples is a list");
    list.to_vec()
}

fn example(value: &Value) -> Example {
    let name = [string(value, "source"), string(value, "number")];
    Example {
        name: format!("example {}", name.join(" ")),
        status: string(value, "status"),
        needs: numbers(value, "needs"),
        note: string(value, "markdown"),
        page: with_last_line_feed(string(value, "html")),
    }
}

/// An example of the standard is out of scope, or says which requests it takes.
fn standard_example(value: &Value) -> Example {
    let in_scope = value.get("out").is_none();
    let needs = in_scope.then(|| numbers(value, "requests"));
    let status = match needs.as_deref() {
        None => "out",
        Some([]) => "base",
        Some(_) => "waiting",
    };
    Example {
        name: format!("example GFM {}", string(value, "number")),
        status: status.to_string(),
        needs: needs.unwrap_or_default(),
        note: string(value, "markdown"),
        page: with_last_line_feed(string(value, "html")),
    }
}

fn picture(k: usize, value: &Value) -> Example {
    Example {
        name: format!("picture {k}"),
        status: "waiting".to_string(),
        needs: vec![5],
        note: string(value, "markdown"),
        page: string(value, "html"),
    }
}

fn string(value: &Value, field: &str) -> String {
    match value.get(field) {
        Some(Value::String(string)) => string.clone(),
        Some(Value::Number(number)) => number.to_string(),
        other => panic!("field {field} is {other:?}"),
    }
}

fn numbers(value: &Value, field: &str) -> Vec<usize> {
    let list = value.get(field).and_then(Value::as_array);
    let list = list.unwrap_or_else(|| panic!("field {field} is no list"));
    let number = |item: &Value| item.as_number().expect("a number") as usize;
    list.iter().map(number).collect()
}

/// "Each paragraph: `<p>`, content, `</p>`, LF"; an example's html may lack the last LF.
fn with_last_line_feed(mut html: String) -> String {
    if !html.is_empty() && !html.ends_with('\n') {
        html.push('\n');
    }
    html
}
