//! `tallowwing write`: the best plan as a plan file.

use std::path::Path;

use crate::failure::Failure;
use crate::output;
use crate::plan_record::PlanRecord;
use crate::source::Source;

pub fn run(file: &Path, overlay: Option<&Path>, wires: u32, limit: u32, capture: u32, out: &Path) -> Result<(), Failure> {
    let source = Source::read(file, overlay)?;
    output::write_file(out, &PlanRecord::planned(&source, file, wires, limit, capture)?.file()?)
}
