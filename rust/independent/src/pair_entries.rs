//! The entries on a SOC text and an overlay on it: the figure, or the refusal and which text is meant.
//!
//! Each refuses the base's faults, then the overlay's, then 15, then what the entry refuses of a good record.

use crate::entries::{give, Outcome};
use crate::forms::{layout_bytes, plan_bytes, soc_bytes};
use crate::pair::{self, PairRefusal, Part, Text};
use crate::refusal::Refusal;
use crate::{planner, soc_written, time};

pub type PairOutcome = Result<u64, PairRefusal>;

/// The combined record.
pub fn read_pair(base: &[u8], overlay: &[u8], record: &mut [u8]) -> PairOutcome {
    Ok(give(&soc_bytes(&pair::read(base, overlay)?.soc), record)?)
}

/// The written form of the combined record.
pub fn write_pair(base: &[u8], overlay: &[u8], text: &mut [u8]) -> PairOutcome {
    Ok(give(soc_written::written(&pair::read(base, overlay)?.soc).as_bytes(), text)?)
}

pub fn layout_pair(base: &[u8], overlay: &[u8], module: u32, test: u32, width: u32, capture: u32, layout: &mut [u8]) -> PairOutcome {
    Ok(give(&layout_bytes(&time::layout_and_time(&pair::read(base, overlay)?.soc, module, test, width, capture)?), layout)?)
}

pub fn module_time_pair(base: &[u8], overlay: &[u8], module: u32, width: u32, capture: u32) -> PairOutcome {
    Ok(time::module_time(&pair::read(base, overlay)?.soc, module, width, capture)?.cycles.0)
}

pub fn module_wires_pair(base: &[u8], overlay: &[u8], module: u32, width: u32, capture: u32) -> PairOutcome {
    Ok(time::module_time(&pair::read(base, overlay)?.soc, module, width, capture)?.wires.0.into())
}

pub fn plan_pair(base: &[u8], overlay: &[u8], wires: u32, limit: u32, capture: u32, plan: &mut [u8]) -> PairOutcome {
    Ok(give(&plan_bytes(&planner::plan(&pair::read(base, overlay)?.soc, wires, limit, capture)?), plan)?)
}

/// Which text has the lines of a module, and where in it they stand (refusal 13 after 15).
pub fn module_lines(base: &[u8], overlay: &[u8], module: u32) -> Result<Part, PairRefusal> {
    Ok(pair::read(base, overlay)?.part(module)?.clone())
}

/// A refusal of a pair as C has it: its line is 4 times the line, and 1 more for the base or 2 more for the overlay.
pub fn for_c(refused: PairRefusal) -> Refusal {
    Refusal::at(refused.refusal.number, 4 * refused.refusal.line + refused.text as usize)
}

/// Where the lines of a module stand, as C has it: 131,072 times where they begin, 2 times where they end, and 1 for the overlay.
pub fn module_lines_for_c(base: &[u8], overlay: &[u8], module: u32) -> Outcome {
    let part = module_lines(base, overlay, module).map_err(for_c)?;
    Ok(131_072 * part.place.start as u64 + 2 * part.place.end as u64 + u64::from(part.text == Text::Overlay))
}
