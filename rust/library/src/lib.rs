//! The Tallowwing library for Rust: its C interface, declared and wrapped in functions on slices.
//!
//! Nothing is decided here. Each function lends its slices to the library for the call and hands back the library's answer.

mod answer;
mod declared;
pub mod places;
pub mod views;
mod wrapped;

pub use answer::Answer;
pub use wrapped::*;

/// Bytes of a SOC record, a layout, a plan record and what the planner with a spending limit found, and the most that a SOC text, a plan
/// file and a listing can have.
pub const SOC_BYTES: usize = 16_688;
pub const LAYOUT_BYTES: usize = 1_304;
pub const PLAN_BYTES: usize = 1_212;
pub const BUDGET_BYTES: usize = 1_228;
pub const TEXT_MAX: usize = 61_440;
pub const PLAN_FILE_MAX: usize = 892;
pub const LISTING_MAX: usize = 6_144;
