//! What stands beside the proved reader: plain Rust without dependencies.
//!
//! [`entries`] calls the proved library. [`second`] is a second reader of notices, written from
//! document 01 by another method than the proved one, so that the two can be compared. [`quick`] is a third one, made to
//! be fast, which the proved one is timed against. [`generate`] makes notes and sheets for the comparison and the
//! benchmark. [`cases`] are those that the program `samples` is run on, [`sources`] the sources' examples (a file that
//! [`json`] reads), [`case_folding`] the rows of Unicode's file.

pub mod case_folding;
pub mod cases;
pub mod entries;
pub mod generate;
pub mod json;
pub mod quick;
pub mod second;
pub mod sources;
