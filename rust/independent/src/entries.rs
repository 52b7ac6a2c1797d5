//! Every entry of the C interface, on slices: the figure, or the refusal.

use crate::forms::{budget_bytes, layout_bytes, plan_bytes, plan_from, soc_bytes, soc_from};
use crate::plan::Plan;
use crate::refusal::{demand, Refusal};
use crate::soc::Soc;
use crate::{budget, listing, plan_file, planner, soc_text, soc_written, time};

pub type Outcome = Result<u64, Refusal>;

pub fn read_soc(text: &[u8], record: &mut [u8]) -> Outcome {
    give(&soc_bytes(&soc_text::read(text)?), record)
}

pub fn write_soc(record: &[u8], text: &mut [u8]) -> Outcome {
    give(soc_written::written(&good_soc(record)?).as_bytes(), text)
}

pub fn layout(record: &[u8], module: u32, test: u32, width: u32, capture: u32, layout: &mut [u8]) -> Outcome {
    give(&layout_bytes(&time::layout_and_time(&good_soc(record)?, module, test, width, capture)?), layout)
}

pub fn module_time(record: &[u8], module: u32, width: u32, capture: u32) -> Outcome {
    Ok(time::module_time(&good_soc(record)?, module, width, capture)?.cycles.0)
}

pub fn module_wires(record: &[u8], module: u32, width: u32, capture: u32) -> Outcome {
    Ok(time::module_time(&good_soc(record)?, module, width, capture)?.wires.0.into())
}

pub fn plan(record: &[u8], wires: u32, limit: u32, capture: u32, plan: &mut [u8]) -> Outcome {
    give(&plan_bytes(&planner::plan(&good_soc(record)?, wires, limit, capture)?), plan)
}

/// The second planner, which stops after so many tries.
pub fn budget(record: &[u8], wires: u32, limit: u32, capture: u32, tries: u64, into: &mut [u8]) -> Outcome {
    give(&budget_bytes(&budget::plan_within(&good_soc(record)?, wires, limit, capture, tries)?), into)
}

pub fn write_plan(plan: &[u8], file: &mut [u8]) -> Outcome {
    give(&plan_file::write(&good_plan(plan)?), file)
}

pub fn read_plan(file: &[u8], plan: &mut [u8]) -> Outcome {
    give(&plan_bytes(&plan_file::read(file)?), plan)
}

pub fn show(plan: &[u8], listing: &mut [u8]) -> Outcome {
    give(listing::plan_lines(&good_plan(plan)?).as_bytes(), listing)
}

pub fn listing(input: &[u8], listing: &mut [u8]) -> Outcome {
    give(listing::listing(input).as_bytes(), listing)
}

fn good_soc(record: &[u8]) -> Result<Soc, Refusal> {
    let soc = soc_from(record).ok_or(Refusal::new(14))?;
    soc.check()?;
    Ok(soc)
}

fn good_plan(record: &[u8]) -> Result<Plan, Refusal> {
    let plan = plan_from(record).ok_or(Refusal::new(12))?;
    plan.check()?;
    Ok(plan)
}

/// Writes a result at the front of the lent bytes, or refuses with 11 and writes none.
pub fn give(result: &[u8], lent: &mut [u8]) -> Outcome {
    demand(result.len() <= lent.len(), 11)?;
    lent[..result.len()].copy_from_slice(result);
    Ok(result.len() as u64)
}
