//! The command `tallowwing`: it hands its files to the library and prints what the library answers.

#![forbid(unsafe_code)]

mod arguments;
mod budget;
mod completions;
mod excerpt;
mod failure;
mod form;
mod help;
mod input;
mod layout;
mod manual;
mod output;
mod overlay;
mod pair_file;
mod plan;
mod plan_record;
mod progress;
mod refusals;
mod report;
mod show;
mod soc;
mod soc_file;
mod source;
mod spot;
mod tell;
mod time;
mod write;

use std::process::ExitCode;

use arguments::Job;
use failure::Failure;
use form::Form;

fn main() -> ExitCode {
    let asked = arguments::read();
    match asked.job.and_then(|job| run(&job, asked.form)) {
        Ok(()) => ExitCode::SUCCESS,
        Err(failure) => tell::tell(failure, asked.form),
    }
}

fn run(job: &Job, form: Form) -> Result<(), Failure> {
    match job {
        Job::Plan { file, overlay, wires, limit, capture } => plan::run(file, overlay.as_deref(), *wires, *limit, *capture, form),
        Job::Budget { file, wires, limit, tries, capture } => {
            budget::run(file, &budget::Asked { wires: *wires, limit: *limit, tries: *tries, capture: *capture }, form)
        }
        Job::Soc { file } => soc::run(file),
        Job::Layout { file, overlay, module, test, width, capture } => {
            layout::run(file, overlay.as_deref(), &layout::Asked { module: *module, test: *test, width: *width, capture: *capture }, form)
        }
        Job::Time { file, overlay, module, width, capture } => time::run(file, overlay.as_deref(), *module, *width, *capture, form),
        Job::Write { file, overlay, wires, limit, capture, out } => write::run(file, overlay.as_deref(), *wires, *limit, *capture, out),
        Job::Show { file } => show::run(file, form),
        Job::Overlay { base, overlay } => overlay::run(base, overlay),
        Job::Lines { base, overlay, module } => overlay::lines(base, overlay, *module),
        Job::Completions { shell } => completions::run(*shell, arguments::command()),
        Job::Manual => manual::run(),
    }
}
