//! The proved library, through its exported entries, against the second reader: answer numbers,
//! values, counts and texts, both tables and the page whole, with the guards around them. Where the sheet
//! is empty and it is for no release, what is wanted are the second reader's answers for the note alone. The quick
//! reader is held against the same answers wherever the library's reader is.
//!
//! Random notes are the same in every run. Two environment variables change that:
//! - `NOTICE_DIFFERENTIAL_NOTES=N`: so many random notes alone (600,000 if not given), as many beside
//!   random sheets, a third as many of repeats, half as many of images, and as many pairs of labels;
//! - `NOTICE_DIFFERENTIAL_SEED=S`: another seed (1 if not given).
//!
//! A longer run: `NOTICE_DIFFERENTIAL_NOTES=20000000 NOTICE_DIFFERENTIAL_SEED=2 cargo test
//! --release --offline --manifest-path host/Cargo.toml --test differential`. A difference is printed
//! with its seed, the note and the sheet, cut down as far as it still differs, and both answers.

mod bad;
mod compare;
mod folding;
mod images;
mod labels;
mod lent;
mod lines;
mod named;
mod quick;
mod random;
mod raw;
mod raw_tables;
mod release;
mod settings;
mod sheets;
mod shrink;
mod stretches;
mod trial;
