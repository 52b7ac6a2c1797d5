//! The records as little-endian bytes, in the forms of the C interface.

use crate::budget::Budgeted;
use crate::plan::{Bus, Plan, Planned};
use crate::soc::{Module, Soc, Test};
use crate::time::LayoutAndTime;
use crate::units::{Cycles, FlipFlops, Wires};

pub const SOC_BYTES: usize = 16_688;
pub const LAYOUT_BYTES: usize = 1_304;
pub const PLAN_BYTES: usize = 1_212;
pub const BUDGET_BYTES: usize = 1_228;

/// Takes numbers from the front of bytes.
pub struct Source<'a>(pub &'a [u8]);

impl Source<'_> {
    pub fn bytes<const N: usize>(&mut self) -> Option<[u8; N]> {
        let (front, rest) = self.0.split_first_chunk()?;
        self.0 = rest;
        Some(*front)
    }

    pub fn u32(&mut self) -> Option<u32> {
        self.bytes().map(u32::from_le_bytes)
    }

    pub fn i32(&mut self) -> Option<i32> {
        self.bytes().map(i32::from_le_bytes)
    }

    pub fn u64(&mut self) -> Option<u64> {
        self.bytes().map(u64::from_le_bytes)
    }

    fn flag(&mut self) -> Option<bool> {
        match self.u32()? {
            0 => Some(false),
            1 => Some(true),
            _ => None,
        }
    }

    /// The value read, if nothing is left behind it.
    fn end<T>(&self, value: T) -> Option<T> {
        self.0.is_empty().then_some(value)
    }
}

/// None where the length is not that of a record or a flag is neither 0 nor 1.
pub fn soc_from(bytes: &[u8]) -> Option<Soc> {
    let mut source = Source(bytes);
    let mut soc = Soc { name_length: source.u32()?, name: source.bytes()?, ..Soc::spare() };
    soc.power = source.flag()?;
    soc.xy = source.flag()?;
    soc.module_count = source.u32()?;
    for module in &mut soc.modules {
        *module = module_from(&mut source)?;
    }
    source.end(soc)
}

fn module_from(source: &mut Source) -> Option<Module> {
    let mut module = Module { level: source.u32()?, inputs: source.u32()?, outputs: source.u32()?, bidirs: source.u32()?, ..Module::SPARE };
    module.chain_count = source.u32()?;
    for length in &mut module.lengths {
        *length = FlipFlops(source.u32()?);
    }
    module.x = source.i32()?;
    module.y = source.i32()?;
    module.test_count = source.u32()?;
    for test in &mut module.tests {
        *test = Test { scan_use: source.flag()?, tam_use: source.flag()?, patterns: source.u32()?, power: source.i32()? };
    }
    Some(module)
}

pub fn soc_bytes(soc: &Soc) -> Vec<u8> {
    let mut bytes = Vec::with_capacity(SOC_BYTES);
    put(&mut bytes, soc.name_length);
    bytes.extend_from_slice(&soc.name);
    for number in [u32::from(soc.power), u32::from(soc.xy), soc.module_count] {
        put(&mut bytes, number);
    }
    for module in &soc.modules {
        put_module(&mut bytes, module);
    }
    bytes
}

fn put_module(bytes: &mut Vec<u8>, module: &Module) {
    for number in [module.level, module.inputs, module.outputs, module.bidirs, module.chain_count] {
        put(bytes, number);
    }
    for length in module.lengths {
        put(bytes, length.0);
    }
    bytes.extend_from_slice(&module.x.to_le_bytes());
    bytes.extend_from_slice(&module.y.to_le_bytes());
    put(bytes, module.test_count);
    for test in module.tests {
        for number in [u32::from(test.scan_use), u32::from(test.tam_use), test.patterns] {
            put(bytes, number);
        }
        bytes.extend_from_slice(&test.power.to_le_bytes());
    }
}

/// The rows of the layout, then scan-in, scan-out and cycles.
pub fn layout_bytes(answer: &LayoutAndTime) -> Vec<u8> {
    let mut bytes = Vec::with_capacity(LAYOUT_BYTES);
    let layout = &answer.layout;
    let flip_flops = layout.flip_flops.map(|length| length.0);
    for numbers in [flip_flops, layout.input_cells, layout.output_cells, layout.bidir_cells, layout.wrapper_chains] {
        for number in numbers {
            put(&mut bytes, number);
        }
    }
    for scan in [answer.scan_in, answer.scan_out] {
        bytes.extend_from_slice(&u64::from(scan.0).to_le_bytes());
    }
    put_cycles(&mut bytes, answer.cycles);
    bytes
}

/// None where the length is not that of a record.
pub fn plan_from(bytes: &[u8]) -> Option<Plan> {
    let mut source = Source(bytes);
    let mut plan = Plan {
        wires: Wires(source.u32()?),
        limit: source.u32()?,
        bus_count: source.u32()?,
        module_count: source.u32()?,
        time: Cycles(source.u64()?),
        ..Plan::default()
    };
    for bus in &mut plan.buses {
        *bus = Bus { width: Wires(source.u32()?), busy: Cycles(source.u64()?) };
    }
    for module in &mut plan.modules {
        let (number, bus, wires) = (source.u32()?, source.u32()?, Wires(source.u32()?));
        *module = Planned { number, bus, wires, cycles: Cycles(source.u64()?), start: Cycles(source.u64()?) };
    }
    source.end(plan)
}

pub fn plan_bytes(plan: &Plan) -> Vec<u8> {
    let mut bytes = Vec::with_capacity(PLAN_BYTES);
    for number in [plan.wires.0, plan.limit, plan.bus_count, plan.module_count] {
        put(&mut bytes, number);
    }
    put_cycles(&mut bytes, plan.time);
    for bus in plan.buses {
        put(&mut bytes, bus.width.0);
        put_cycles(&mut bytes, bus.busy);
    }
    for module in plan.modules {
        for number in [module.number, module.bus, module.wires.0] {
            put(&mut bytes, number);
        }
        put_cycles(&mut bytes, module.cycles);
        put_cycles(&mut bytes, module.start);
    }
    bytes
}

/// Whether the search is finished, whether there is a plan, the tries, and the plan's record, which is all 0 where there is none.
pub fn budget_bytes(answer: &Budgeted) -> Vec<u8> {
    let mut bytes = Vec::with_capacity(BUDGET_BYTES);
    for flag in [answer.finished, answer.plan.is_some()] {
        put(&mut bytes, u32::from(flag));
    }
    bytes.extend_from_slice(&answer.tries.to_le_bytes());
    bytes.extend_from_slice(&plan_bytes(answer.plan.as_ref().unwrap_or(&Plan::default())));
    bytes
}

fn put(bytes: &mut Vec<u8>, number: u32) {
    bytes.extend_from_slice(&number.to_le_bytes());
}

pub fn put_cycles(bytes: &mut Vec<u8>, cycles: Cycles) {
    bytes.extend_from_slice(&cycles.0.to_le_bytes());
}
