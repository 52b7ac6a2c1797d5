//! `tallowwing budget`: the best plan met within a number of tries.

use std::path::Path;

use tallowwing_library::views::{BudgetView, PlanView};
use tallowwing_library::{self as library, BUDGET_BYTES};

use crate::failure::Failure;
use crate::form::Form;
use crate::output;
use crate::plan_record::PlanRecord;
use crate::progress::Progress;
use crate::report::{Report, Row, Value};
use crate::soc_file::SocFile;

/// For how many wires, buses, tries and capture cycles.
pub struct Asked {
    pub wires: u32,
    pub limit: u32,
    pub tries: u64,
    pub capture: u32,
}

pub fn run(file: &Path, asked: &Asked, form: Form) -> Result<(), Failure> {
    let soc = SocFile::read(file)?;
    let mut found = [0; BUDGET_BYTES];
    let mut progress = Progress::new(asked.tries);
    // Each answer is true for its own number of tries, and that of a finished search is true for more of them too.
    for tries in progress.budgets() {
        search(&soc, asked, tries, &mut found)?;
        let view = BudgetView::new(&found);
        if view.finished() {
            break;
        }
        progress.tell(view.tries(), view.plan().map(|plan| PlanView::new(plan).time()));
    }
    progress.end();
    output::print(&printed(BudgetView::new(&found), &soc, file, asked.capture, form)?)
}

fn search(soc: &SocFile, asked: &Asked, tries: u64, found: &mut [u8]) -> Result<u64, Failure> {
    let &Asked { wires, limit, capture, .. } = asked;
    let arguments = [("W", wires.into()), ("B", limit.into()), ("C", capture.into()), ("TRIES", asked.tries)];
    soc.figure(library::budget(soc.record(), wires, limit, capture, tries, found), &arguments)
}

/// How the search ended and its tries, then the plan, if one is known.
fn printed(found: BudgetView, soc: &SocFile, file: &Path, capture: u32, form: Form) -> Result<Vec<u8>, Failure> {
    let ended = if found.finished() { "finished" } else { "unfinished" };
    let told: Row = vec![("ended", Value::Name(ended.to_string())), ("tries", found.tries().into())];
    let front = match form {
        Form::Json => String::new(),
        Form::Lines | Form::Table => format!("{ended}\ntries {}\n", found.tries()),
    };
    let plan = match (found.plan(), form) {
        (Some(plan), _) => PlanRecord::found(plan, file, capture).printed(Some(soc.view().name()), told, form)?,
        (None, Form::Json) => {
            let asked = [vec![("capture", capture.into())], told].concat();
            Report { asked, head: Row::new(), groups: Vec::new() }.printed(form).into_bytes()
        }
        (None, Form::Lines | Form::Table) => Vec::new(),
    };
    Ok([front.as_bytes(), &plan].concat())
}
