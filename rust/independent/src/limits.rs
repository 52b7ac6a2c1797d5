//! The limits of document 01, each stated once.

pub const TEXT_BYTES: usize = 61_440;
pub const NAME_BYTES: usize = 32;
pub const MODULES: usize = 40;
pub const LEVEL: u32 = 40;
pub const TERMINALS: u32 = 8_191;
pub const CHAINS: usize = 64;
pub const CHAIN_LENGTH: u32 = 4_096;
pub const TESTS: usize = 8;
pub const PATTERNS: u32 = 16_777_215;
pub const POSITION: u32 = 1_000_000;
pub const POWER: u32 = 16_777_215;

pub const WIRES: u32 = 64;
/// Buses and planned modules of a plan, and of the second planner.
pub const BUSES: usize = 8;
pub const PLANNED: usize = 39;
/// Buses and planned modules of the first planner.
pub const FIRST_PLANNER_BUSES: usize = 3;
pub const FIRST_PLANNER_PLANNED: usize = 12;
/// The most tries that the second planner may be allowed.
pub const BUDGET: u64 = 1_099_511_627_776;

/// Capture cycles, from 1; and those where none are asked for.
pub const CAPTURE: u32 = 4;
pub const CAPTURE_IF_ABSENT: u32 = 1;

/// The most cycles that one test, and one module, can take with the most capture cycles.
pub const TEST_CYCLES: u64 = 4_672_957_972_476;
pub const MODULE_CYCLES: u64 = 37_383_663_779_808;

/// The most bytes of a plan file.
pub const PLAN_FILE_BYTES: usize = 892;

/// The most bytes of the line `Plan W B c`, its end included.
pub const PLAN_LINE_BYTES: usize = 32;
