//! Holds the library against the independent implementation, on the corpus and on cases made from a seed.

mod at_limits;
mod case;
mod case_file;
mod census;
mod compare;
mod damage_record;
mod damage_text;
mod kinds;
mod make_plan;
mod make_soc;
mod options;
mod random;
mod run;
mod self_test;

use std::process::ExitCode;

use options::{Mode, Options};

fn main() -> ExitCode {
    let options = match Options::read(std::env::args().skip(1)) {
        Ok(options) => options,
        Err(message) => {
            eprintln!("differential: {message}\n{}", options::USAGE);
            return ExitCode::from(2);
        }
    };
    let outcome = match &options.mode {
        Mode::Help => Ok(options::USAGE.to_string()),
        Mode::SelfTest => self_test::self_test(options.cases, options.seed),
        Mode::Compare => run::run(&options),
    };
    match outcome {
        Ok(last_line) => {
            println!("{last_line}");
            ExitCode::SUCCESS
        }
        Err(difference) => {
            println!("{difference}");
            ExitCode::FAILURE
        }
    }
}
