//! Times: of a test at a width, with its layout, and of a module on a bus of a width.

use crate::layout::{layout, layout_for, Layout};
use crate::limits;
use crate::refusal::{demand, Refusal};
use crate::soc::{Module, Soc, Test};
use crate::units::{Capture, Cycles, FlipFlops, Wires};

/// What is answered of one test at a width, so that no layout can be shown beside a time of another width.
#[derive(Clone, Debug, PartialEq, Eq)]
pub struct LayoutAndTime {
    pub layout: Layout,
    /// The longest scan-in and the longest scan-out.
    pub scan_in: FlipFlops,
    pub scan_out: FlipFlops,
    pub cycles: Cycles,
}

/// A module's time on a bus, and the fewest wires that give it.
#[derive(Clone, Copy, Debug, PartialEq, Eq)]
pub struct ModuleTime {
    pub cycles: Cycles,
    pub wires: Wires,
}

/// The layout of one test of a module with its scan lengths and cycles (refusals 7, 16, 13; the record is good).
pub fn layout_and_time(soc: &Soc, module: u32, test: u32, width: u32, capture: u32) -> Result<LayoutAndTime, Refusal> {
    let (width, capture) = (check_width(width)?, check_capture(capture)?);
    let (module, test) = asked_test(soc, module, test)?;
    let layout = layout(module, test, width);
    let (scan_in, scan_out) = (layout.scan_in(), layout.scan_out());
    Ok(LayoutAndTime { scan_in, scan_out, cycles: cycles(&layout, test.patterns, capture), layout })
}

/// The time of a module on a bus of a width (refusals 7, 16, 13; the record is good).
pub fn module_time(soc: &Soc, module: u32, width: u32, capture: u32) -> Result<ModuleTime, Refusal> {
    let (width, capture) = (check_width(width)?, check_capture(capture)?);
    let module = soc.module(module)?;
    Ok(*times(module, width, capture).last().expect("a width is at least 1"))
}

/// The times of a module on buses of the widths from 1 to `widest`.
pub fn times(module: &Module, widest: Wires, capture: Capture) -> Vec<ModuleTime> {
    let mut times = Vec::new();
    let mut best: Option<ModuleTime> = None;
    for width in (1..=widest.0).map(Wires) {
        let figure = figure(module, width, capture);
        // Only a smaller figure takes over, so the wires stay the smallest that give it.
        let now = match best {
            Some(best) if best.cycles <= figure => best,
            _ => ModuleTime { cycles: figure, wires: width },
        };
        times.push(now);
        best = Some(now);
    }
    times
}

/// The sum over the tests with TamUse 1 at this very width.
pub fn figure(module: &Module, width: Wires, capture: Capture) -> Cycles {
    let figure_of = |scan_use: bool| {
        let mut tests = module.tests().iter().filter(|test| test.tam_use && test.scan_use == scan_use).peekable();
        if tests.peek().is_none() {
            return Cycles(0);
        }
        let layout = layout_for(module, scan_use, width);
        tests.map(|test| cycles(&layout, test.patterns, capture)).sum()
    };
    figure_of(false) + figure_of(true)
}

/// (c + max(si, so)) × p + min(si, so).
fn cycles(layout: &Layout, patterns: u32, capture: Capture) -> Cycles {
    let (scan_in, scan_out) = (u64::from(layout.scan_in().0), u64::from(layout.scan_out().0));
    Cycles((u64::from(capture.0) + scan_in.max(scan_out)) * u64::from(patterns) + scan_in.min(scan_out))
}

fn asked_test(soc: &Soc, module: u32, test: u32) -> Result<(&Module, &Test), Refusal> {
    let module = soc.module(module)?;
    let index = (test as usize).checked_sub(1).ok_or(Refusal::new(13))?;
    let test = module.tests().get(index).ok_or(Refusal::new(13))?;
    Ok((module, test))
}

pub fn check_width(width: u32) -> Result<Wires, Refusal> {
    demand((1..=limits::WIRES).contains(&width), 7)?;
    Ok(Wires(width))
}

pub fn check_capture(capture: u32) -> Result<Capture, Refusal> {
    demand((1..=limits::CAPTURE).contains(&capture), 16)?;
    Ok(Capture(capture))
}
