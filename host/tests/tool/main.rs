//! The command-line tool: its commands on the examples and on hard notes, refusals, files, sheets,
//! releases, labels in other letters, images, usage.

mod compared;
mod examples;
mod files;
mod images;
mod letters;
mod notes;
mod output;
mod refusals;
mod releases;
mod repeats;
mod run;
mod sheets;
mod usage;
mod wrapper;
