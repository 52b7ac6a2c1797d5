//! Cases of the planner, of plan records and of plan files.

use independent::forms::soc_bytes;
use independent::limits;

use super::records::any_capture;
use crate::case::{Case, Entry};
use crate::damage_record::damage_any;
use crate::make_plan::LoosePlan;
use crate::make_soc::{make_soc, Shape};
use crate::random::Random;

/// A shape for the planner: mostly few planned modules, now and then none or more than twelve.
pub fn planned_shape(random: &mut Random) -> Shape {
    let planned = match random.below(20) {
        0 => 0,
        1 => random.within(13, 14),
        2 => random.within(9, 12),
        _ => random.within(1, 6),
    };
    Shape { modules: planned + random.within(1, 4), planned, large: random.chance(3) }
}

/// W, B and c: few wires, so that no case takes long; the refusals of each now and then.
pub fn any_plan_numbers(random: &mut Random) -> [u32; 3] {
    let wires = match random.below(20) {
        0 => *random.pick(&[0, 65, 4_294_967_295]),
        1 => random.within(13, limits::WIRES),
        _ => random.within(1, 12),
    };
    let limit = if random.chance(5) { *random.pick(&[0, 4, 5, 8, 4_294_967_295]) } else { random.within(1, 3) };
    [wires, limit, any_capture(random)]
}

pub fn plan_small(random: &mut Random) -> Case {
    let record = soc_bytes(&make_soc(planned_shape(random), random));
    Case::new(Entry::Plan, any_plan_numbers(random), record)
}

pub fn plan_large(random: &mut Random) -> Case {
    let shape = Shape { modules: random.within(13, 15), planned: limits::FIRST_PLANNER_PLANNED as u32, large: false };
    Case::new(
        Entry::Plan,
        [limits::WIRES, limits::FIRST_PLANNER_BUSES as u32, random.within(1, limits::CAPTURE)],
        soc_bytes(&make_soc(shape, random)),
    )
}

pub fn plan_record_good(random: &mut Random) -> Case {
    handed_to_any(LoosePlan::good(random).record(), random)
}

pub fn plan_record_damaged(random: &mut Random) -> Case {
    let mut plan = LoosePlan::good(random);
    let among_figures = random.chance(60);
    if among_figures {
        plan.damage(random);
    }
    let mut record = plan.record();
    if !among_figures {
        damage_any(&mut record, random);
    }
    handed_to_any(record, random)
}

/// Every entry that takes a plan record judges it in the same way.
fn handed_to_any(record: Vec<u8>, random: &mut Random) -> Case {
    Case::new(*random.pick(&[Entry::WritePlan, Entry::Show]), [], record)
}

/// Modules whose cycles lie about the most there are, and about the most with one capture cycle.
pub fn plan_most_cycles(random: &mut Random) -> Case {
    let mut plan = LoosePlan::good(random);
    plan.raise_cycles(random);
    if random.chance(50) {
        return handed_to_any(plan.record(), random);
    }
    Case::new(Entry::ReadPlan, [], plan.file())
}

pub fn plan_file_good(random: &mut Random) -> Case {
    Case::new(Entry::ReadPlan, [], LoosePlan::good(random).file())
}

/// A file of the old 12-byte records, good by the rules of its time, or with a rule broken.
pub fn plan_file_old(random: &mut Random) -> Case {
    let mut plan = LoosePlan::good(random);
    if random.chance(30) {
        plan.damage(random);
    }
    Case::new(Entry::ReadPlan, [], plan.old_file())
}

pub fn plan_file_damaged(random: &mut Random) -> Case {
    let mut plan = LoosePlan::good(random);
    let among_figures = random.chance(60);
    if among_figures {
        plan.damage(random);
    }
    let mut file = plan.file();
    if !among_figures {
        damage_any(&mut file, random);
    }
    Case::new(Entry::ReadPlan, [], file)
}
