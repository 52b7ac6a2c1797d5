//! The second planner: as many planned modules as a text can have, up to eight buses, and a budget of tries.

use crate::limits;
use crate::plan::Plan;
use crate::planner::{planned_modules, record, table, width_lists, Choice};
use crate::refusal::{demand, Refusal};
use crate::soc::Soc;
use crate::time::{check_capture, check_width, ModuleTime};
use crate::units::{Cycles, Wires};

/// What the search came to.
#[derive(Clone, Debug, PartialEq, Eq)]
pub struct Budgeted {
    /// Whether the search needed no more tries than the budget.
    pub finished: bool,
    /// The tries spent: the whole budget where the search is unfinished.
    pub tries: u64,
    /// The best plan met, if one was completed.
    pub plan: Option<Plan>,
}

/// Searches for the plan for W wires, limit B and c capture cycles (refusals 7, 8, 16, 9, 18; the record is good).
pub fn plan_within(soc: &Soc, wires: u32, limit: u32, capture: u32, budget: u64) -> Result<Budgeted, Refusal> {
    let wires = check_width(wires)?;
    demand((1..=limits::BUSES as u32).contains(&limit), 8)?;
    let capture = check_capture(capture)?;
    let planned = planned_modules(soc);
    demand(!planned.is_empty(), 9)?;
    demand((1..=limits::BUDGET).contains(&budget), 18)?;
    let table = table(soc, &planned, wires, capture);
    let mut search = Search { table: &table, budget, tries: 0, best: None };
    let finished = search.go_through_plans(wires, limit).is_ok();
    let plan = search.best.map(|best| record(&planned, &table, &best, wires, limit));
    Ok(Budgeted { finished, tries: search.tries, plan })
}

/// The search stopped: a try was due and the budget was spent.
struct Spent;

/// The best plan so far and the tries spent, which go along through the whole search.
struct Search<'a> {
    table: &'a [Vec<ModuleTime>],
    budget: u64,
    tries: u64,
    best: Option<Choice>,
}

/// The modules placed so far on buses of these widths: the bus of each, counted from 0, and how long each bus is busy.
struct Placement<'a> {
    widths: &'a [Wires],
    buses: Vec<usize>,
    busy: Vec<Cycles>,
}

impl Search<'_> {
    /// Bus counts, width lists and bus numbers in the order of plans.
    fn go_through_plans(&mut self, wires: Wires, limit: u32) -> Result<(), Spent> {
        for bus_count in 1..=limit.min(wires.0) {
            for widths in width_lists(bus_count, wires) {
                let busy = vec![Cycles(0); widths.len()];
                self.place_next(&mut Placement { widths: &widths, buses: Vec::new(), busy })?;
            }
        }
        Ok(())
    }

    /// Places the next module, for which each bus is tried in turn.
    fn place_next(&mut self, placement: &mut Placement) -> Result<(), Spent> {
        if placement.buses.len() == self.table.len() {
            self.keep_if_better(placement);
            return Ok(());
        }
        for bus in 0..placement.widths.len() {
            self.try_bus(bus, placement)?;
        }
        Ok(())
    }

    /// One try. It counts whether it is dropped or goes on to place the next module.
    fn try_bus(&mut self, bus: usize, placement: &mut Placement) -> Result<(), Spent> {
        if self.tries == self.budget {
            return Err(Spent);
        }
        self.tries += 1;
        let module = placement.buses.len();
        let before = placement.busy[bus];
        let busy = before + self.table[module][placement.widths[bus].0 as usize - 1].cycles;
        // The bus tried is looked at and no other; while no plan is known nothing is dropped.
        if self.best.as_ref().is_some_and(|best| best.time <= busy) {
            return Ok(());
        }
        placement.busy[bus] = busy;
        placement.buses.push(bus);
        self.place_next(placement)?;
        placement.buses.pop();
        placement.busy[bus] = before;
        Ok(())
    }

    /// A completed placement becomes the best plan exactly when none is known or its time is lower.
    fn keep_if_better(&mut self, placement: &Placement) {
        let time = placement.busy.iter().copied().max().unwrap_or_default();
        if self.best.as_ref().is_none_or(|best| time < best.time) {
            self.best = Some(Choice { widths: placement.widths.to_vec(), buses: placement.buses.clone(), time });
        }
    }
}
