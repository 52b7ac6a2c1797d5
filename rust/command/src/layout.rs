//! `tallowwing layout`: the wrapper of a module for one of its tests, and what the test takes with it, all of one answer.

use std::path::Path;

use tallowwing_library::views::{Chain, LayoutView};
use tallowwing_library::LAYOUT_BYTES;

use crate::failure::Failure;
use crate::form::Form;
use crate::output;
use crate::report::{Group, Report, Row};
use crate::source::Source;

/// Of which test, at which width, with how many capture cycles.
pub struct Asked {
    pub module: u32,
    pub test: u32,
    pub width: u32,
    pub capture: u32,
}

pub fn run(file: &Path, overlay: Option<&Path>, asked: &Asked, form: Form) -> Result<(), Failure> {
    let source = Source::read(file, overlay)?;
    let &Asked { module, test, width, capture } = asked;
    let mut layout = [0; LAYOUT_BYTES];
    source.layout(module, test, width, capture, &mut layout)?;
    let internal = source.soc().view().module(module).map_or(0, |module| module.chain_count());
    let mut report = report(LayoutView::new(&layout), width, internal);
    report.asked = vec![("module", module.into()), ("test", test.into()), ("width", width.into()), ("capture", capture.into())];
    output::print(report.printed(form).as_bytes())
}

fn report(layout: LayoutView, width: u32, internal: u32) -> Report {
    let chain = |i: u32| -> Row {
        let Chain { flip_flops, input_cells, output_cells, bidir_cells } = layout.chain(i);
        let figures = [("chain", i), ("ff", flip_flops), ("in", input_cells), ("out", output_cells), ("bidir", bidir_cells)];
        figures.map(|(name, figure)| (name, figure.into())).to_vec()
    };
    let internal_chain = |j: u32| -> Row { vec![("internal", j.into()), ("chain", layout.wrapper_chain(j).into())] };
    Report {
        asked: Vec::new(),
        head: vec![("si", layout.si().into()), ("so", layout.so().into()), ("cycles", layout.cycles().into())],
        groups: vec![
            Group { name: "chains", rows: (1..=width).map(chain).collect() },
            Group { name: "internal", rows: (1..=internal).map(internal_chain).collect() },
        ],
    }
}
