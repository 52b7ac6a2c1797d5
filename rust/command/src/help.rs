//! The texts of the help.

use crate::refusals::{Words, REFUSALS};

pub const ABOUT: &str = "Plans the test buses of a chip";

pub const LONG_ABOUT: &str = "\
Plans the test buses of a chip.

Reads a SOC text, lays out wrappers, tells the times of modules, and finds the bus plan of least time for a number of wires. FILE may \
be - for standard input.";

pub const AFTER: &str = "See `tallowwing --help` for exit statuses and refusals.";

/// The refusals from their table, then what the statuses mean.
pub fn after_long() -> String {
    let line = |refusal: &Words| format!("  {:>2}  {}\n", refusal.number, refusal.words);
    let refusals: String = REFUSALS.iter().map(line).collect();
    format!("{BEFORE_REFUSALS}{refusals}{BEHIND_REFUSALS}")
}

const BEFORE_REFUSALS: &str = "\
A refusal prints `refused N line L` on standard output and what is wrong on standard error. L is 0 where no line is meant. N is one of:
";

const BEHIND_REFUSALS: &str = "
Exit status:
  0  done
  1  refused
  2  a wrong call
  3  a file cannot be read or written

Example:
  tallowwing plan d695.soc 64 3";

pub const PLAN: &str = "\
Lists the plan of least time for W wires and at most B buses.

Prints `soc NAME wires W limit B time T`, then `bus I width W busy CYCLES` for each bus and `module M bus I wires K cycles CYCLES \
start CYCLES` for each planned module: how long it takes, and at which cycle it begins. A test of P patterns takes (C + the \
longer of scan-in and scan-out) × P + the shorter of them, C being the capture cycles.";

pub const BUDGET: &str = "\
Searches for a plan for W wires and at most B buses within TRIES tries.

Takes up to 8 buses and as many planned modules as a text can have. Prints `finished` or `unfinished`, then `tries N`, the tries that \
were spent, then the best plan met as `tallowwing plan` lists it, if one was met. A plan of a finished search is the one of least time \
that `tallowwing plan` lists too.";

pub const SOC: &str = "\
Writes a SOC text in its written form.

Single spaces, no blank lines, and where an option is 1 every figure, as -1 when not given.";

pub const LAYOUT: &str = "\
Lays out the wrapper of a module for one of its tests.

Prints `si A so B cycles C` (longest scan-in and scan-out of this layout, and the cycles of the test with them), then \
`chain I ff F in N out M bidir K` for each wrapper chain and `internal J chain I` for each internal chain of the module; chain 0 means \
that the test does not use it. A bidirectional cell counts in both scan-in and scan-out of its chain, and not among its \
input and output cells.";

pub const TIME: &str = "\
Tells a module's time on a bus, and its wires.

Prints `cycles X wires Y`: the least figure over all widths up to WIDTH, and the fewest wires that give it.";

pub const WRITE: &str = "\
Writes the plan of least time to a plan file.

OUT is written whole or not at all.";

pub const SHOW: &str = "\
Shows what a plan file holds.

Prints `wires W limit B time T`, then the lines of the buses and modules as `tallowwing plan` has them.";

pub const OVERLAY: &str = "\
Writes a SOC text with an overlay on it in its written form.

Each module is the overlay's where it has it, otherwise the base's. A refusal prints `refused N line L base` or `.. overlay` for the text \
that is meant.";

pub const LINES: &str = "\
Prints the lines of a module as they stand.

Of the overlay where it has the module, otherwise of the base: from their first field to their last, with nothing added.";

pub const COMPLETIONS: &str = "\
Prints the completions for a shell.

For bash: `source <(tallowwing completions bash)`.";

pub const MANUAL: &str = "\
Prints the manual page.

To read it: `tallowwing manual | man -l -`.";
