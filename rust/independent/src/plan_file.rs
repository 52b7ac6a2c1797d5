//! The plan file, written from a plan record and read back to it.

use crate::forms::{put_cycles, Source};
use crate::limits;
use crate::plan::{Bus, Plan, Planned};
use crate::refusal::{demand, Refusal};
use crate::units::{Cycles, Wires};

pub const TRAILER_BYTES: usize = 16;

/// The plan file of a good record: modules, buses, and the trailer that points back at them.
pub fn write(plan: &Plan) -> Vec<u8> {
    let mut file = Vec::new();
    for module in plan.modules() {
        file.extend_from_slice(&[module.number as u8, module.bus as u8, module.wires.0 as u8, 0]);
        put_cycles(&mut file, module.cycles);
        put_cycles(&mut file, module.start);
    }
    let bus_offset = file.len() as u16;
    for bus in plan.buses() {
        file.extend_from_slice(&[bus.width.0 as u8, 0, 0, 0]);
        put_cycles(&mut file, bus.busy);
    }
    file.extend_from_slice(&0u16.to_le_bytes());
    file.extend_from_slice(&bus_offset.to_le_bytes());
    file.extend_from_slice(&[plan.wires.0 as u8, plan.limit as u8, plan.bus_count as u8, plan.module_count as u8]);
    put_cycles(&mut file, plan.time);
    file
}

/// Reads the part used and no more; any fault is 12.
pub fn read(file: &[u8]) -> Result<Plan, Refusal> {
    let plan = read_fields(file).ok_or(Refusal::new(12))?;
    plan.check()?;
    // A good record has one file alone, so zero bytes, offsets and the length need no tests of their own.
    demand(write(&plan) == file, 12)?;
    Ok(plan)
}

/// The figures as they stand in the file, or None where the counts point outside of the file or the record.
fn read_fields(file: &[u8]) -> Option<Plan> {
    let (entries, trailer) = file.split_at_checked(file.len().checked_sub(TRAILER_BYTES)?)?;
    let mut trailer = Source(trailer);
    let _offsets = trailer.u32()?;
    let [wires, limit, bus_count, module_count] = trailer.bytes()?.map(u32::from);
    let time = Cycles(trailer.u64()?);
    let mut plan = Plan { wires: Wires(wires), limit, bus_count, module_count, time, ..Plan::default() };
    if bus_count as usize > limits::BUSES || module_count as usize > limits::PLANNED {
        return None;
    }
    let mut source = Source(entries);
    for module in &mut plan.modules[..module_count as usize] {
        let [number, bus, wires, _zero] = source.bytes()?.map(u32::from);
        let (cycles, start) = (Cycles(source.u64()?), Cycles(source.u64()?));
        *module = Planned { number, bus, wires: Wires(wires), cycles, start };
    }
    for bus in &mut plan.buses[..bus_count as usize] {
        let [width, ..] = source.bytes::<4>()?.map(u32::from);
        *bus = Bus { width: Wires(width), busy: Cycles(source.u64()?) };
    }
    Some(plan)
}
