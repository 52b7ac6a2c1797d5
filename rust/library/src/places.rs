//! Where each figure stands in the bytes of a record, as `include/tallowwing.h` has it: the one place that says so.

/// A SOC record: offsets from its front.
pub mod soc {
    pub const NAME_LENGTH: usize = 0;
    pub const NAME: usize = 4;
    pub const MODULE_COUNT: usize = 44;
    /// All that stands before the first module.
    pub const HEAD_BYTES: usize = 48;
    /// The places for modules, of which the first are used.
    pub const MODULES: usize = 40;

    /// The offset of module m.
    pub const fn module(m: usize) -> usize {
        HEAD_BYTES + super::module::BYTES * m
    }
}

/// A module in a SOC record: offsets from the module's front.
pub mod module {
    pub const LEVEL: usize = 0;
    pub const INPUTS: usize = 4;
    pub const OUTPUTS: usize = 8;
    pub const BIDIRS: usize = 12;
    pub const CHAIN_COUNT: usize = 16;
    pub const LENGTHS: usize = 20;
    pub const X: usize = 276;
    pub const Y: usize = 280;
    pub const TEST_COUNT: usize = 284;
    pub const TESTS: usize = 288;
    pub const BYTES: usize = 416;

    /// The offset of test i, counted from 1.
    pub const fn test(i: usize) -> usize {
        TESTS + super::test::BYTES * (i - 1)
    }
}

/// A test in a module: offsets from the test's front.
pub mod test {
    pub const SCAN_USE: usize = 0;
    pub const TAM_USE: usize = 4;
    pub const PATTERNS: usize = 8;
    pub const POWER: usize = 12;
    pub const BYTES: usize = 16;
}

/// A layout: offsets of its five rows, each of 64 numbers of 4 bytes, and of three numbers of 8 bytes.
pub mod layout {
    pub const FLIP_FLOPS: usize = 0;
    pub const INPUT_CELLS: usize = 256;
    pub const OUTPUT_CELLS: usize = 512;
    pub const BIDIR_CELLS: usize = 768;
    pub const WRAPPER_CHAINS: usize = 1_024;
    pub const SI: usize = 1_280;
    pub const SO: usize = 1_288;
    pub const CYCLES: usize = 1_296;
}

/// A plan record: offsets from its front.
pub mod plan {
    pub const WIRES: usize = 0;
    pub const LIMIT: usize = 4;
    pub const BUS_COUNT: usize = 8;
    pub const MODULE_COUNT: usize = 12;
    pub const TIME: usize = 16;
    pub const BUSES: usize = 24;
    pub const MODULES: usize = 120;

    /// The offset of bus i, counted from 1.
    pub const fn bus(i: usize) -> usize {
        BUSES + super::bus::BYTES * (i - 1)
    }

    /// The offset of the j-th planned module, counted from 0.
    pub const fn module(j: usize) -> usize {
        MODULES + super::planned::BYTES * j
    }
}

/// What the planner with a spending limit found: offsets from its front.
pub mod budget {
    pub const FINISHED: usize = 0;
    pub const KNOWN: usize = 4;
    pub const TRIES: usize = 8;
    pub const PLAN: usize = 16;
}

/// A bus in a plan record: offsets from the bus's front.
pub mod bus {
    pub const WIDTH: usize = 0;
    pub const BUSY: usize = 4;
    pub const BYTES: usize = 12;
}

/// A planned module in a plan record: offsets from its front.
pub mod planned {
    pub const NUMBER: usize = 0;
    pub const BUS: usize = 4;
    pub const WIRES: usize = 8;
    pub const CYCLES: usize = 12;
    pub const START: usize = 20;
    pub const BYTES: usize = 28;
}

#[cfg(test)]
mod tests {
    use super::*;
    use crate::{BUDGET_BYTES, LAYOUT_BYTES, PLAN_BYTES, SOC_BYTES};

    #[test]
    fn records_are_filled_to_their_end() {
        assert_eq!(soc::module(soc::MODULES), SOC_BYTES);
        assert_eq!(module::test(9), module::BYTES);
        assert_eq!((layout::WRAPPER_CHAINS + 64 * 4, layout::CYCLES + 8), (layout::SI, LAYOUT_BYTES));
        assert_eq!((plan::bus(9), plan::module(39)), (plan::MODULES, PLAN_BYTES));
        assert_eq!(budget::PLAN + PLAN_BYTES, BUDGET_BYTES);
    }
}
