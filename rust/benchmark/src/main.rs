//! Measures the library beside the independent implementation and prints a Markdown page. Nothing is asserted of the times.

mod inputs;
mod machine;
mod measure;
mod page;

use std::process::ExitCode;

fn main() -> ExitCode {
    let words: Vec<String> = std::env::args().skip(1).collect();
    match words.as_slice() {
        [] => page::print(),
        _ => {
            eprintln!("usage: benchmark > PAGE.md");
            return ExitCode::from(2);
        }
    }
    ExitCode::SUCCESS
}
