//! Views of records that the library has written: their figures by name. A view is made of bytes of the record's own length.

use crate::places;
use crate::{BUDGET_BYTES, LAYOUT_BYTES, PLAN_BYTES, SOC_BYTES};

/// The 4-byte number at an offset.
fn u32_at(bytes: &[u8], offset: usize) -> u32 {
    bytes[offset..offset + 4].iter().rev().fold(0, |number, &byte| number << 8 | u32::from(byte))
}

/// The 8-byte number at an offset.
fn u64_at(bytes: &[u8], offset: usize) -> u64 {
    u64::from(u32_at(bytes, offset + 4)) << 32 | u64::from(u32_at(bytes, offset))
}

/// A SOC record.
#[derive(Clone, Copy)]
pub struct SocView<'a>(&'a [u8; SOC_BYTES]);

impl<'a> SocView<'a> {
    pub fn new(record: &'a [u8; SOC_BYTES]) -> Self {
        SocView(record)
    }

    pub fn name(self) -> &'a [u8] {
        let length = u32_at(self.0, places::soc::NAME_LENGTH) as usize;
        &self.0[places::soc::NAME..][..length]
    }

    pub fn module_count(self) -> u32 {
        u32_at(self.0, places::soc::MODULE_COUNT)
    }

    /// The module of a number, if the SOC has it.
    pub fn module(self, number: u32) -> Option<ModuleView<'a>> {
        let front = places::soc::module(number as usize);
        (number < self.module_count()).then(|| ModuleView(&self.0[front..front + places::module::BYTES]))
    }

    /// How many modules have a test with TamUse 1.
    pub fn planned_count(self) -> usize {
        (0..self.module_count()).filter_map(|number| self.module(number)).filter(|module| module.is_planned()).count()
    }
}

/// A module in a SOC record.
#[derive(Clone, Copy)]
pub struct ModuleView<'a>(&'a [u8]);

impl ModuleView<'_> {
    pub fn chain_count(self) -> u32 {
        u32_at(self.0, places::module::CHAIN_COUNT)
    }

    pub fn test_count(self) -> u32 {
        u32_at(self.0, places::module::TEST_COUNT)
    }

    /// Whether one of its tests has TamUse 1.
    pub fn is_planned(self) -> bool {
        (1..=self.test_count() as usize).any(|test| u32_at(self.0, places::module::test(test) + places::test::TAM_USE) == 1)
    }
}

/// A wrapper chain of a layout: flip-flops, input cells, output cells and bidirectional cells.
#[derive(Clone, Copy, Debug, PartialEq, Eq)]
pub struct Chain {
    pub flip_flops: u32,
    pub input_cells: u32,
    pub output_cells: u32,
    pub bidir_cells: u32,
}

/// A layout.
#[derive(Clone, Copy)]
pub struct LayoutView<'a>(&'a [u8; LAYOUT_BYTES]);

impl<'a> LayoutView<'a> {
    pub fn new(layout: &'a [u8; LAYOUT_BYTES]) -> Self {
        LayoutView(layout)
    }

    /// Wrapper chain i, counted from 1.
    pub fn chain(self, i: u32) -> Chain {
        use places::layout::{BIDIR_CELLS, FLIP_FLOPS, INPUT_CELLS, OUTPUT_CELLS};
        let rows = [FLIP_FLOPS, INPUT_CELLS, OUTPUT_CELLS, BIDIR_CELLS];
        let [flip_flops, input_cells, output_cells, bidir_cells] = rows.map(|row| self.number(row, i));
        Chain { flip_flops, input_cells, output_cells, bidir_cells }
    }

    /// The wrapper chain of internal chain j, both counted from 1, or 0 where the test does not use it.
    pub fn wrapper_chain(self, j: u32) -> u32 {
        self.number(places::layout::WRAPPER_CHAINS, j)
    }

    /// The longest scan-in of its wrapper chains.
    pub fn si(self) -> u64 {
        u64_at(self.0, places::layout::SI)
    }

    /// The longest scan-out of its wrapper chains.
    pub fn so(self) -> u64 {
        u64_at(self.0, places::layout::SO)
    }

    /// What the test takes with this layout, at the capture cycles that were asked for.
    pub fn cycles(self) -> u64 {
        u64_at(self.0, places::layout::CYCLES)
    }

    fn number(self, row: usize, from_1: u32) -> u32 {
        u32_at(self.0, row + 4 * (from_1 as usize - 1))
    }
}

#[derive(Clone, Copy, Debug, PartialEq, Eq)]
pub struct Bus {
    pub width: u32,
    pub busy: u64,
}

/// A planned module and its place in the plan.
#[derive(Clone, Copy, Debug, PartialEq, Eq)]
pub struct Planned {
    pub number: u32,
    pub bus: u32,
    pub wires: u32,
    pub cycles: u64,
    pub start: u64,
}

/// A plan record.
#[derive(Clone, Copy)]
pub struct PlanView<'a>(&'a [u8; PLAN_BYTES]);

impl<'a> PlanView<'a> {
    pub fn new(plan: &'a [u8; PLAN_BYTES]) -> Self {
        PlanView(plan)
    }

    pub fn wires(self) -> u32 {
        u32_at(self.0, places::plan::WIRES)
    }

    pub fn limit(self) -> u32 {
        u32_at(self.0, places::plan::LIMIT)
    }

    pub fn time(self) -> u64 {
        u64_at(self.0, places::plan::TIME)
    }

    pub fn buses(self) -> impl Iterator<Item = Bus> + 'a {
        let count = u32_at(self.0, places::plan::BUS_COUNT) as usize;
        (1..=count).map(move |i| {
            let front = places::plan::bus(i);
            Bus { width: u32_at(self.0, front + places::bus::WIDTH), busy: u64_at(self.0, front + places::bus::BUSY) }
        })
    }

    pub fn modules(self) -> impl Iterator<Item = Planned> + 'a {
        let count = u32_at(self.0, places::plan::MODULE_COUNT) as usize;
        (0..count).map(move |j| {
            let front = places::plan::module(j);
            Planned {
                number: u32_at(self.0, front + places::planned::NUMBER),
                bus: u32_at(self.0, front + places::planned::BUS),
                wires: u32_at(self.0, front + places::planned::WIRES),
                cycles: u64_at(self.0, front + places::planned::CYCLES),
                start: u64_at(self.0, front + places::planned::START),
            }
        })
    }
}

/// What the planner with a spending limit found.
#[derive(Clone, Copy)]
pub struct BudgetView<'a>(&'a [u8; BUDGET_BYTES]);

impl<'a> BudgetView<'a> {
    pub fn new(found: &'a [u8; BUDGET_BYTES]) -> Self {
        BudgetView(found)
    }

    /// Whether the search needed no more tries than it was given.
    pub fn finished(self) -> bool {
        u32_at(self.0, places::budget::FINISHED) == 1
    }

    /// The tries spent.
    pub fn tries(self) -> u64 {
        u64_at(self.0, places::budget::TRIES)
    }

    /// The record of the best plan met, if one is known.
    pub fn plan(self) -> Option<&'a [u8; PLAN_BYTES]> {
        let known = u32_at(self.0, places::budget::KNOWN) == 1;
        self.0[places::budget::PLAN..].first_chunk().filter(|_| known)
    }
}
