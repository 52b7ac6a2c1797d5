//! A plan record: the lines that the library has for it, and its figures by name.

use std::path::Path;

use tallowwing_library::views::PlanView;
use tallowwing_library::{self as library, Answer, LISTING_MAX, PLAN_BYTES, PLAN_FILE_MAX};

use crate::failure::{Failure, Place, Refusal};
use crate::form::Form;
use crate::output;
use crate::report::{Group, Report, Row, Value};
use crate::source::Source;

pub struct PlanRecord {
    file: Box<Path>,
    record: [u8; PLAN_BYTES],
    /// The capture cycles that it was planned with, which its record does not hold.
    capture: Option<u32>,
}

impl PlanRecord {
    /// The first plan of least time.
    pub fn planned(source: &Source, file: &Path, wires: u32, limit: u32, capture: u32) -> Result<Self, Failure> {
        let mut record = [0; PLAN_BYTES];
        source.plan(wires, limit, capture, &mut record)?;
        Ok(PlanRecord { file: file.into(), record, capture: Some(capture) })
    }

    /// A plan that was found otherwise.
    pub fn found(record: &[u8; PLAN_BYTES], file: &Path, capture: u32) -> Self {
        PlanRecord { file: file.into(), record: *record, capture: Some(capture) }
    }

    /// The plan that a plan file holds.
    pub fn read(bytes: &[u8], file: &Path) -> Result<Self, Failure> {
        let mut plan = PlanRecord { file: file.into(), record: [0; PLAN_BYTES], capture: None };
        let answer = library::read_plan(bytes, &mut plan.record);
        plan.figure(answer)?;
        Ok(plan)
    }

    /// The plan file.
    pub fn file(&self) -> Result<Vec<u8>, Failure> {
        let mut bytes = vec![0; PLAN_FILE_MAX];
        let length = self.figure(library::write_plan(&self.record, &mut bytes))?;
        bytes.truncate(length as usize);
        Ok(bytes)
    }

    /// Prints the plan.
    pub fn print(&self, name: Option<&[u8]>, form: Form) -> Result<(), Failure> {
        output::print(&self.printed(name, Row::new(), form)?)
    }

    /// The plan as it is printed. Lines are the library's own; a SOC's name stands before them as in a listing. JSON tells what is told of
    /// the search too.
    pub fn printed(&self, name: Option<&[u8]>, told: Row, form: Form) -> Result<Vec<u8>, Failure> {
        let name = name.map(String::from_utf8_lossy);
        if form != Form::Lines {
            let mut report = self.report(name.as_deref());
            report.asked.extend(told);
            return Ok(report.printed(form).into_bytes());
        }
        let mut lines = vec![0; LISTING_MAX];
        let length = self.figure(library::show(&self.record, &mut lines))?;
        let front = name.map_or(String::new(), |name| format!("soc {name} "));
        Ok([front.as_bytes(), &lines[..length as usize]].concat())
    }

    /// What the lines say, by name.
    fn report(&self, name: Option<&str>) -> Report {
        let plan = PlanView::new(&self.record);
        let name = name.map(|name| ("soc", Value::Name(name.to_string())));
        let head = [("wires", plan.wires().into()), ("limit", plan.limit().into()), ("time", plan.time().into())];
        let bus = |(index, bus): (u32, library::views::Bus)| -> Row {
            vec![("bus", index.into()), ("width", bus.width.into()), ("busy", bus.busy.into())]
        };
        let module = |module: library::views::Planned| -> Row {
            let numbers = [("module", module.number), ("bus", module.bus), ("wires", module.wires)];
            let mut row: Row = numbers.map(|(name, number)| (name, number.into())).to_vec();
            row.push(("cycles", module.cycles.into()));
            row.push(("start", module.start.into()));
            row
        };
        Report {
            asked: self.capture.map(|capture| ("capture", capture.into())).into_iter().collect(),
            head: name.into_iter().chain(head).collect(),
            groups: vec![
                Group { name: "buses", rows: (1..).zip(plan.buses()).map(bus).collect() },
                Group { name: "modules", rows: plan.modules().map(module).collect() },
            ],
        }
    }

    fn figure(&self, answer: Answer) -> Result<u64, Failure> {
        match answer {
            Answer::Figure(figure) => Ok(figure),
            Answer::Refused { number, .. } => Err(Refusal::without_line(Place::File(self.file.to_path_buf()), number, None).into()),
        }
    }
}

#[cfg(test)]
mod tests {
    use super::*;

    #[test]
    fn the_report_says_what_the_lines_say() {
        for (example, wires, limit) in [("t1", 4, 2), ("t1", 1, 1), ("d695", 32, 3), ("d695", 9, 2)] {
            let path = Path::new(env!("CARGO_MANIFEST_DIR")).join(format!("../../examples/{example}.soc"));
            let Ok(source) = Source::read(&path, None) else { panic!("{example} is good") };
            let Ok(plan) = PlanRecord::planned(&source, &path, wires, limit, 1) else { panic!("{example} has a plan") };
            let mut lines = vec![0; LISTING_MAX];
            let length = library::show(&plan.record, &mut lines).figure().expect("a good record") as usize;
            assert_eq!(plan.report(None).printed(Form::Lines).as_bytes(), &lines[..length]);
        }
    }
}
