//! `tallowwing completions`: what a shell needs to complete the command's words.

use clap::Command;
use clap_complete::{generate, Shell};

use crate::failure::Failure;
use crate::output;

/// The shells that scripts are made for.
pub const SHELLS: [&str; 3] = ["bash", "zsh", "fish"];

pub fn run(shell: Shell, mut command: Command) -> Result<(), Failure> {
    let mut script = Vec::new();
    generate(shell, &mut command, "tallowwing", &mut script);
    output::print(&script)
}
