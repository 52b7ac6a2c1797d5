//! Cases of SOC records, and of the layouts and times that are asked of them.

use independent::forms::soc_bytes;
use independent::limits;
use tallowwing_library::places::{module, soc};

use crate::at_limits::limit_in_record;
use crate::case::{Case, Entry};
use crate::damage_record::damage_soc;
use crate::make_soc::{any_shape, make_soc, plan_module_0};
use crate::random::Random;

pub fn any_record(random: &mut Random) -> Vec<u8> {
    soc_bytes(&make_soc(any_shape(random), random))
}

pub fn soc_good(random: &mut Random) -> Case {
    Case::new(Entry::WriteSoc, [], any_record(random))
}

pub fn soc_damaged(random: &mut Random) -> Case {
    let mut record = any_record(random);
    damage_soc(&mut record, random);
    handed_to_any(record, random)
}

/// A record that is good but for a test of module 0 with TamUse 1.
pub fn soc_module_0(random: &mut Random) -> Case {
    let mut soc = make_soc(any_shape(random), random);
    plan_module_0(&mut soc, random);
    handed_to_any(soc_bytes(&soc), random)
}

pub fn soc_limits(random: &mut Random) -> Case {
    let mut record = any_record(random);
    limit_in_record(&mut record, random);
    handed_to_any(record, random)
}

/// Every entry that takes a SOC record judges it in the same way.
fn handed_to_any(record: Vec<u8>, random: &mut Random) -> Case {
    let entry = *random.pick(&[Entry::WriteSoc, Entry::Layout, Entry::ModuleTime, Entry::ModuleWires, Entry::Plan, Entry::Budget]);
    let capture = any_capture(random);
    let numbers = match entry {
        Entry::WriteSoc => [0; 4],
        Entry::Layout => [random.within(0, 2), random.within(0, 2), random.within(0, 9), capture],
        Entry::Plan => [random.within(0, 6), random.within(0, 3), capture, 0],
        Entry::Budget => [random.within(0, 6), random.within(0, 8), capture, random.within(0, 2_000)],
        _ => [random.within(0, 2), random.within(0, 9), capture, 0],
    };
    Case::new(entry, numbers, record)
}

pub fn any_width(random: &mut Random) -> u32 {
    match random.below(20) {
        0 => *random.pick(&[0, 65, 66, 256, 257, 4_294_967_295]),
        1 => limits::WIRES,
        2..=5 => random.within(1, limits::WIRES),
        _ => random.within(1, 12),
    }
}

/// Mostly from 1 to 4, now and then just outside or far from it.
pub fn any_capture(random: &mut Random) -> u32 {
    match random.below(20) {
        0 => *random.pick(&[255, 256, 257, 65_537, 4_294_967_295]),
        1..=2 => *random.pick(&[0, limits::CAPTURE + 1, limits::CAPTURE + 2]),
        _ => random.within(1, limits::CAPTURE),
    }
}

/// The number of a module that is there, now and then of one that is not.
pub fn any_module(record: &[u8], random: &mut Random) -> u32 {
    let count = u32::from(record[soc::MODULE_COUNT]);
    match random.below(12) {
        0 => *random.pick(&[count, count + 1, 40, 256, 4_294_967_295]),
        _ => random.within(0, count - 1),
    }
}

pub fn any_test(record: &[u8], number: u32, random: &mut Random) -> u32 {
    let place = soc::module(number as usize) + module::TEST_COUNT;
    let count = record.get(place).map_or(0, |&count| u32::from(count));
    match random.below(12) {
        0 => *random.pick(&[0, count + 1, 9, 257, 4_294_967_295]),
        _ => random.within(1, count.max(1)),
    }
}

pub fn layout(random: &mut Random) -> Case {
    let record = any_record(random);
    let module = any_module(&record, random);
    let test = any_test(&record, module.min(39), random);
    Case::new(Entry::Layout, [module, test, any_width(random), any_capture(random)], record)
}

pub fn asks_a_module(entry: Entry, random: &mut Random) -> Case {
    let record = any_record(random);
    let module = any_module(&record, random);
    Case::new(entry, [module, any_width(random), any_capture(random)], record)
}

pub fn module_time(random: &mut Random) -> Case {
    asks_a_module(Entry::ModuleTime, random)
}

pub fn module_wires(random: &mut Random) -> Case {
    asks_a_module(Entry::ModuleWires, random)
}
