//! Every entry of the library on slices.
//!
//! The calls are sound for all slices: the library is proved to stay within the lengths it is given, a slice's pointer is never null even
//! when it is empty, and a slice that is written cannot overlap one that is read.

use crate::answer::Answer;
use crate::declared::*;

/// Reads a SOC text to its record.
pub fn read_soc(text: &[u8], record: &mut [u8]) -> Answer {
    Answer::from_number(unsafe { tallowwing_read_soc(text.as_ptr(), text.len(), record.as_mut_ptr(), record.len()) })
}

/// Reads a SOC text, the base, and an overlay to the record of the combined description. The line of a refusal has 4 times the line, and 1
/// more for the base or 2 more for the overlay.
pub fn read_pair(base: &[u8], overlay: &[u8], record: &mut [u8]) -> Answer {
    let (b, o) = (base.as_ptr(), overlay.as_ptr());
    Answer::from_number(unsafe { tallowwing_read_pair(b, base.len(), o, overlay.len(), record.as_mut_ptr(), record.len()) })
}

/// Where the lines of a module of a pair stand: 131,072 times where they begin, twice where they end, and 1 in the overlay.
pub fn module_lines(base: &[u8], overlay: &[u8], module: u32) -> Answer {
    Answer::from_number(unsafe { tallowwing_module_lines(base.as_ptr(), base.len(), overlay.as_ptr(), overlay.len(), module) })
}

/// Writes the written form of a pair's combined description. A refusal of a pair is as `read_pair` has it, here and below; what is refused
/// of an accepted pair is about neither text.
pub fn write_pair(base: &[u8], overlay: &[u8], text: &mut [u8]) -> Answer {
    let (b, o) = (base.as_ptr(), overlay.as_ptr());
    Answer::from_number(unsafe { tallowwing_write_pair(b, base.len(), o, overlay.len(), text.as_mut_ptr(), text.len()) })
}

/// Lays out the wrapper of a module of a pair for one of its tests at a width.
pub fn layout_pair(base: &[u8], overlay: &[u8], module: u32, test: u32, width: u32, capture: u32, layout: &mut [u8]) -> Answer {
    let (b, o, into, room) = (base.as_ptr(), overlay.as_ptr(), layout.as_mut_ptr(), layout.len());
    Answer::from_number(unsafe { tallowwing_layout_pair(b, base.len(), o, overlay.len(), module, test, width, capture, into, room) })
}

/// The time, in cycles, of a module of a pair on a bus of a width.
pub fn module_time_pair(base: &[u8], overlay: &[u8], module: u32, width: u32, capture: u32) -> Answer {
    let (b, o) = (base.as_ptr(), overlay.as_ptr());
    Answer::from_number(unsafe { tallowwing_module_time_pair(b, base.len(), o, overlay.len(), module, width, capture) })
}

/// The fewest wires that give the time of a module of a pair on a bus of a width.
pub fn module_wires_pair(base: &[u8], overlay: &[u8], module: u32, width: u32, capture: u32) -> Answer {
    let (b, o) = (base.as_ptr(), overlay.as_ptr());
    Answer::from_number(unsafe { tallowwing_module_wires_pair(b, base.len(), o, overlay.len(), module, width, capture) })
}

/// Finds the first plan of least time of a pair for W wires and limit B.
pub fn plan_pair(base: &[u8], overlay: &[u8], wires: u32, limit: u32, capture: u32, plan: &mut [u8]) -> Answer {
    let (b, o, into, room) = (base.as_ptr(), overlay.as_ptr(), plan.as_mut_ptr(), plan.len());
    Answer::from_number(unsafe { tallowwing_plan_pair(b, base.len(), o, overlay.len(), wires, limit, capture, into, room) })
}

/// Writes the written form of a SOC record.
pub fn write_soc(record: &[u8], text: &mut [u8]) -> Answer {
    Answer::from_number(unsafe { tallowwing_write_soc(record.as_ptr(), record.len(), text.as_mut_ptr(), text.len()) })
}

/// Lays out the wrapper of a module for one of its tests at a width, with the layout's longest scan-in and scan-out and the test's cycles,
/// with so many capture cycles for each pattern.
pub fn layout(record: &[u8], module: u32, test: u32, width: u32, capture: u32, layout: &mut [u8]) -> Answer {
    let (r, l) = (record.as_ptr(), layout.as_mut_ptr());
    Answer::from_number(unsafe { tallowwing_layout(r, record.len(), module, test, width, capture, l, layout.len()) })
}

/// A module's time, in cycles, on a bus of a width.
pub fn module_time(record: &[u8], module: u32, width: u32, capture: u32) -> Answer {
    Answer::from_number(unsafe { tallowwing_module_time(record.as_ptr(), record.len(), module, width, capture) })
}

/// The fewest wires that give a module's time on a bus of a width.
pub fn module_wires(record: &[u8], module: u32, width: u32, capture: u32) -> Answer {
    Answer::from_number(unsafe { tallowwing_module_wires(record.as_ptr(), record.len(), module, width, capture) })
}

/// Finds the first plan of least time for W wires and limit B.
pub fn plan(record: &[u8], wires: u32, limit: u32, capture: u32, plan: &mut [u8]) -> Answer {
    Answer::from_number(unsafe { tallowwing_plan(record.as_ptr(), record.len(), wires, limit, capture, plan.as_mut_ptr(), plan.len()) })
}

/// Searches for a plan for W wires and up to 8 buses within a number of tries: whether the search was finished, the tries spent and the
/// best plan met.
pub fn budget(record: &[u8], wires: u32, limit: u32, capture: u32, tries: u64, found: &mut [u8]) -> Answer {
    let (r, f) = (record.as_ptr(), found.as_mut_ptr());
    Answer::from_number(unsafe { tallowwing_budget(r, record.len(), wires, limit, capture, tries, f, found.len()) })
}

/// Writes the plan file of a plan record.
pub fn write_plan(plan: &[u8], file: &mut [u8]) -> Answer {
    Answer::from_number(unsafe { tallowwing_write_plan(plan.as_ptr(), plan.len(), file.as_mut_ptr(), file.len()) })
}

/// Reads a plan file, the part used and no more, to its record.
pub fn read_plan(file: &[u8], plan: &mut [u8]) -> Answer {
    Answer::from_number(unsafe { tallowwing_read_plan(file.as_ptr(), file.len(), plan.as_mut_ptr(), plan.len()) })
}

/// Lists a plan record: the line `wires W limit B time T`, then its buses and modules as in a listing.
pub fn show(plan: &[u8], listing: &mut [u8]) -> Answer {
    Answer::from_number(unsafe { tallowwing_show(plan.as_ptr(), plan.len(), listing.as_mut_ptr(), listing.len()) })
}

/// Lists the plan for a line `Plan W B`, or `Plan W B C` with C capture cycles, and the SOC text behind it, or the line `refused N line L`.
pub fn listing(input: &[u8], listing: &mut [u8]) -> Answer {
    Answer::from_number(unsafe { tallowwing_listing(input.as_ptr(), input.len(), listing.as_mut_ptr(), listing.len()) })
}
