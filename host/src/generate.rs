//! Notes and sheets by chance, the same in every run with the same seed, and the notes and labels of the benchmark.

pub mod alphabets;
pub mod bench_notes;
pub mod chance;
pub mod grammar;
pub mod images;
pub mod long_labels;
pub mod many_labels;
pub mod repeats;
pub mod sheets;
pub mod spellings;
