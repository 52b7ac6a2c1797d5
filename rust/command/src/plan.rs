//! `tallowwing plan`: the listing of the best plan.

use std::path::Path;

use crate::failure::Failure;
use crate::form::Form;
use crate::plan_record::PlanRecord;
use crate::source::Source;

pub fn run(file: &Path, overlay: Option<&Path>, wires: u32, limit: u32, capture: u32, form: Form) -> Result<(), Failure> {
    let source = Source::read(file, overlay)?;
    let plan = PlanRecord::planned(&source, file, wires, limit, capture)?;
    plan.print(Some(source.soc().view().name()), form)
}
