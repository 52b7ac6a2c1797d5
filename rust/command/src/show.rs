//! `tallowwing show`: what a plan file holds.

use std::path::Path;

use tallowwing_library::PLAN_FILE_MAX;

use crate::failure::Failure;
use crate::form::Form;
use crate::input;
use crate::plan_record::PlanRecord;

pub fn run(file: &Path, form: Form) -> Result<(), Failure> {
    let bytes = input::read(file, PLAN_FILE_MAX)?;
    PlanRecord::read(&bytes, file)?.print(None, form)
}
