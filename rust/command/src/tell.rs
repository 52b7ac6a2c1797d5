//! What is told of a failure, on standard output and standard error, and the exit status.

use std::io::{self, Write};
use std::os::fd::AsRawFd;
use std::path::Path;
use std::process::ExitCode;

use crate::excerpt::excerpt;
use crate::failure::{Failure, Place, Refusal};
use crate::form::Form;
use crate::{output, refusals};

const REFUSED: u8 = 1;
const WRONG_CALL: u8 = 2;
const SYSTEM: u8 = 3;

/// Columns of a message where standard error is no terminal.
const COLUMNS: usize = 120;

pub fn tell(failure: Failure, form: Form) -> ExitCode {
    match failure {
        Failure::Refused(refusal) => tell_refusal(&refusal, form),
        Failure::Call(error) => tell_call(&error),
        Failure::System { file, error } => tell_system(&file, &error),
    }
}

fn tell_refusal(refusal: &Refusal, form: Form) -> ExitCode {
    tell_lines(&message(refusal, columns()));
    let Refusal { number, line, text, .. } = refusal;
    let printed = match (form, text) {
        (Form::Json, None) => format!("{{\"refused\":{number},\"line\":{line}}}\n"),
        (Form::Json, Some(text)) => format!("{{\"refused\":{number},\"line\":{line},\"text\":\"{text}\"}}\n"),
        (Form::Lines | Form::Table, None) => format!("refused {number} line {line}\n"),
        (Form::Lines | Form::Table, Some(text)) => format!("refused {number} line {line} {text}\n"),
    };
    match output::print(printed.as_bytes()) {
        Ok(()) => ExitCode::from(REFUSED),
        Err(failure) => tell(failure, form),
    }
}

/// `FILE:LINE: what is wrong (refusal N)` with the line beneath, or `ARGUMENT VALUE: what is wrong (refusal N)`.
fn message(refusal: &Refusal, columns: usize) -> String {
    let Refusal { number, line, place, known, shown, .. } = refusal;
    let place = match place {
        Place::File(file) if *line > 0 => format!("{}:{line}", file.display()),
        Place::File(file) => file.display().to_string(),
        Place::Argument { name, value } => format!("{name} {value}"),
    };
    let known = known.as_ref().map_or(String::new(), |known| format!(": {known}"));
    let told = format!("{place}: {}{known} (refusal {number})", refusals::of(*number).words);
    match shown {
        Some((bytes, mark)) => format!("{told}\n{}", excerpt(bytes, *line, *mark, columns)),
        None => told,
    }
}

fn tell_call(error: &clap::Error) -> ExitCode {
    let printed = error.print();
    match (error.use_stderr(), printed) {
        (true, _) => ExitCode::from(WRONG_CALL),
        (false, Ok(())) => ExitCode::SUCCESS,
        (false, Err(error)) => tell_system(Path::new(output::STANDARD_OUTPUT), &error),
    }
}

fn tell_system(file: &Path, error: &io::Error) -> ExitCode {
    tell_lines(&format!("{}: {}", file.display(), reason(error)));
    ExitCode::from(SYSTEM)
}

/// A standard error that is closed is no reason to end otherwise.
fn tell_lines(lines: &str) {
    let _ = writeln!(io::stderr(), "tallowwing: {lines}");
}

fn columns() -> usize {
    terminal_size::terminal_size_using_fd(io::stderr().as_raw_fd()).map_or(COLUMNS, |(width, _)| width.0.into())
}

/// The system's reason, without the number that Rust adds to it.
fn reason(error: &io::Error) -> String {
    let told = error.to_string();
    match told.find(" (os error") {
        Some(end) => told[..end].to_string(),
        None => told,
    }
}

#[cfg(test)]
mod tests {
    use super::*;

    #[test]
    fn a_line_is_shown_beneath_the_message() {
        let refusal = Refusal::of_text(Path::new("x.soc"), b"SocName t1\nTotalModules 0\n", 4, 2);
        let told = "x.soc:2: a number is not decimal or is outside its limit: 0 is not from 1 to 40 (refusal 4)
 2 | TotalModules 0
   |              ^";
        assert_eq!(message(&refusal, 80), told);
    }

    #[test]
    fn an_argument_is_named_with_its_value() {
        let place = Place::Argument { name: "W", value: "0".to_string() };
        assert_eq!(message(&Refusal::without_line(place, 7, None), 80), "W 0: the number of wires is not from 1 to 64 (refusal 7)");
    }

    #[test]
    fn what_is_known_stands_behind_the_words() {
        let place = Place::File("x.soc".into());
        let refusal = Refusal::without_line(place, 10, Some("13".to_string()));
        assert_eq!(message(&refusal, 80), "x.soc: more than 12 modules are planned: 13 (refusal 10)");
    }
}
