//! Document 01, with the requests of document 02 that have landed, in plain Rust, written from the documents alone, so that the library
//! can be held against it.
//!
//! It shares nothing with the library: where both answer alike, two readings of the documents agree.

#![forbid(unsafe_code)]

pub mod block;
pub mod budget;
pub mod entries;
pub mod forms;
pub mod layout;
pub mod limits;
pub mod lines;
pub mod listing;
pub mod overlay;
pub mod pair;
pub mod pair_entries;
pub mod plan;
pub mod plan_file;
pub mod planner;
pub mod refusal;
pub mod soc;
pub mod soc_text;
pub mod soc_written;
pub mod time;
pub mod units;
