//! In which form a result is printed.

use std::io::{self, IsTerminal};

#[derive(Clone, Copy, Debug, PartialEq, Eq)]
pub enum Form {
    /// A line for each figure or row, words and numbers parted by single spaces: for other programs.
    Lines,
    /// Columns in line: for a reader at a terminal.
    Table,
    /// One JSON object.
    Json,
}

impl Form {
    pub fn chosen(json: bool) -> Self {
        match (json, io::stdout().is_terminal()) {
            (true, _) => Form::Json,
            (false, true) => Form::Table,
            (false, false) => Form::Lines,
        }
    }
}
