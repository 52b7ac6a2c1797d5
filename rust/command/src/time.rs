//! `tallowwing time`: a module's time on a bus, and its wires.

use std::path::Path;

use crate::failure::Failure;
use crate::form::Form;
use crate::output;
use crate::report::Report;
use crate::source::Source;

pub fn run(file: &Path, overlay: Option<&Path>, module: u32, width: u32, capture: u32, form: Form) -> Result<(), Failure> {
    let source = Source::read(file, overlay)?;
    let (cycles, wires) = (source.module_time(module, width, capture)?, source.module_wires(module, width, capture)?);
    let report = Report {
        asked: vec![("module", module.into()), ("width", width.into()), ("capture", capture.into())],
        head: vec![("cycles", cycles.into()), ("wires", wires.into())],
        groups: Vec::new(),
    };
    output::print(report.printed(form).as_bytes())
}
