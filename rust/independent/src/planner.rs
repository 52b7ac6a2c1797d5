//! The first planner: the first plan of least time in the order of plans, for up to twelve modules and three buses.

use crate::limits;
use crate::plan::{Bus, Plan, Planned};
use crate::refusal::{demand, Refusal};
use crate::soc::Soc;
use crate::time::{check_capture, check_width, times, ModuleTime};
use crate::units::{Capture, Cycles, Wires};

/// Finds the plan for W wires, limit B and c capture cycles (refusals 7, 8, 16, 9, 10; the record is good).
pub fn plan(soc: &Soc, wires: u32, limit: u32, capture: u32) -> Result<Plan, Refusal> {
    let wires = check_width(wires)?;
    demand((1..=limits::FIRST_PLANNER_BUSES as u32).contains(&limit), 8)?;
    let capture = check_capture(capture)?;
    let planned = planned_modules(soc);
    demand(!planned.is_empty(), 9)?;
    demand(planned.len() <= limits::FIRST_PLANNER_PLANNED, 10)?;
    let table = table(soc, &planned, wires, capture);
    let best = search(&table, wires, limit);
    Ok(record(&planned, &table, &best, wires, limit))
}

/// The numbers of the planned modules, ascending.
pub fn planned_modules(soc: &Soc) -> Vec<u32> {
    (0..soc.module_count).filter(|&number| soc.modules[number as usize].planned()).collect()
}

/// Of each planned module its times on buses of the widths from 1 to W.
pub fn table(soc: &Soc, planned: &[u32], wires: Wires, capture: Capture) -> Vec<Vec<ModuleTime>> {
    planned.iter().map(|&number| times(&soc.modules[number as usize], wires, capture)).collect()
}

/// Widths of the buses, and for each planned module its bus counted from 0.
pub struct Choice {
    pub widths: Vec<Wires>,
    pub buses: Vec<usize>,
    pub time: Cycles,
}

/// Goes through the plans in their order and keeps one only if it is better than all before, so the first of least time is left.
fn search(table: &[Vec<ModuleTime>], wires: Wires, limit: u32) -> Choice {
    let mut best: Option<Choice> = None;
    for bus_count in 1..=limit.min(wires.0) {
        for widths in width_lists(bus_count, wires) {
            let known = best.as_ref().map(|best| best.time);
            if let Some((buses, time)) = Assignment::new(table, &widths, known).search() {
                best = Some(Choice { widths, buses, time });
            }
        }
    }
    best.expect("one bus takes all modules")
}

/// Widths of at least 1, non-decreasing, summing to W, in the order of plans.
pub fn width_lists(bus_count: u32, wires: Wires) -> Vec<Vec<Wires>> {
    fn extend(start: &[Wires], buses_left: u32, wires_left: u32, lists: &mut Vec<Vec<Wires>>) {
        let least = start.last().map_or(1, |width| width.0);
        let widths = if buses_left == 1 { wires_left..=wires_left } else { least..=wires_left / buses_left };
        for width in widths {
            let list = [start, &[Wires(width)]].concat();
            if buses_left == 1 {
                lists.push(list);
            } else {
                extend(&list, buses_left - 1, wires_left - width, lists);
            }
        }
    }
    let mut lists = Vec::new();
    extend(&[], bus_count, wires.0, &mut lists);
    lists
}

/// The search for an assignment that beats the best time known, for one list of widths.
struct Assignment<'a> {
    widths: &'a [Wires],
    /// Of each module its cycles on each bus.
    cycles: Vec<Vec<u64>>,
    /// The least that the modules from each one on add to all buses together.
    rest: Vec<u64>,
    /// A bus must stay below this.
    bound: u64,
    busy: Vec<u64>,
    buses: Vec<usize>,
    found: Option<Vec<usize>>,
}

impl<'a> Assignment<'a> {
    fn new(table: &[Vec<ModuleTime>], widths: &'a [Wires], known: Option<Cycles>) -> Self {
        let on_bus = |times: &[ModuleTime], width: Wires| times[width.0 as usize - 1].cycles.0;
        let cycles: Vec<Vec<u64>> = table.iter().map(|times| widths.iter().map(|&width| on_bus(times, width)).collect()).collect();
        let mut rest = vec![0; cycles.len() + 1];
        for module in (0..cycles.len()).rev() {
            // Times never rise with the width of the bus, and the last bus is the widest.
            rest[module] = rest[module + 1] + cycles[module][widths.len() - 1];
        }
        Assignment {
            widths,
            cycles,
            rest,
            bound: known.map_or(u64::MAX, |time| time.0),
            busy: vec![0; widths.len()],
            buses: Vec::with_capacity(table.len()),
            found: None,
        }
    }

    /// The buses of the first assignment of least time, and that time, if it beats the best known.
    fn search(mut self) -> Option<(Vec<usize>, Cycles)> {
        // A module that is too slow even on the widest bus settles the whole list.
        if self.cycles.iter().any(|on| on[self.widths.len() - 1] >= self.bound) {
            return None;
        }
        self.place(0);
        self.found.map(|buses| (buses, Cycles(self.bound)))
    }

    fn place(&mut self, module: usize) {
        if module == self.cycles.len() {
            self.bound = self.busy.iter().copied().max().unwrap_or(0);
            self.found = Some(self.buses.clone());
            return;
        }
        for bus in 0..self.widths.len() {
            if self.hopeless(module) {
                return;
            }
            let busy = self.busy[bus] + self.cycles[module][bus];
            if busy >= self.bound || self.mirrors_earlier(bus) {
                continue;
            }
            let before = std::mem::replace(&mut self.busy[bus], busy);
            self.buses.push(bus);
            self.place(module + 1);
            self.buses.pop();
            self.busy[bus] = before;
        }
    }

    /// No plan below this place stays under the bound. The bound may have fallen since the modules before were placed, so a bus can already
    /// have reached it; and all buses together may be too few for what is placed and what is left.
    fn hopeless(&self, module: usize) -> bool {
        let least = self.busy.iter().sum::<u64>() + self.rest[module];
        self.busy.iter().any(|&busy| busy >= self.bound) || least > (self.bound - 1).saturating_mul(self.widths.len() as u64)
    }

    /// Of two empty buses of equal width the first was tried already; the plans are the same but for the buses' numbers, and came earlier.
    fn mirrors_earlier(&self, bus: usize) -> bool {
        bus > 0 && self.widths[bus - 1] == self.widths[bus] && self.busy[bus - 1] == 0 && self.busy[bus] == 0
    }
}

/// The plan record of a choice.
pub fn record(planned: &[u32], table: &[Vec<ModuleTime>], best: &Choice, wires: Wires, limit: u32) -> Plan {
    let mut plan =
        Plan { wires, limit, bus_count: best.widths.len() as u32, module_count: planned.len() as u32, time: best.time, ..Plan::default() };
    for (bus, &width) in plan.buses.iter_mut().zip(&best.widths) {
        *bus = Bus { width, busy: Cycles(0) };
    }
    for (index, &number) in planned.iter().enumerate() {
        let bus = best.buses[index];
        let time = table[index][best.widths[bus].0 as usize - 1];
        plan.modules[index] = Planned { number, bus: bus as u32 + 1, wires: time.wires, cycles: time.cycles, start: Cycles(0) };
        plan.buses[bus].busy = plan.buses[bus].busy + time.cycles;
    }
    for index in 0..planned.len() {
        plan.modules[index].start = plan.start_of(&plan.modules[index]);
    }
    plan
}
