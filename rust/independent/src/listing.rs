//! The printing program, from its whole standard input to its whole standard output.

use std::fmt::Write;

use crate::limits;
use crate::lines::Fields;
use crate::plan::{Plan, Planned};
use crate::planner::plan;
use crate::refusal::{demand, Refusal};
use crate::soc::Soc;
use crate::soc_text;

pub fn listing(input: &[u8]) -> String {
    match soc_and_plan(input) {
        Ok((soc, plan)) => lines(&soc, &plan),
        Err(Refusal { number, line }) => format!("refused {number} line {line}\n"),
    }
}

fn soc_and_plan(input: &[u8]) -> Result<(Soc, Plan), Refusal> {
    let end = input.iter().position(|&byte| byte == b'\n').map_or(input.len(), |place| place + 1);
    let (first, text) = input.split_at(end);
    let [wires, limit, capture] = plan_line(first)?;
    let soc = soc_text::read(text)?;
    let plan = plan(&soc, wires, limit, capture)?;
    Ok((soc, plan))
}

/// W, B and c from the line `Plan W B` or `Plan W B c`, given with its end.
fn plan_line(line: &[u8]) -> Result<[u32; 3], Refusal> {
    demand(line.len() <= limits::PLAN_LINE_BYTES, 3)?;
    let content = line.strip_suffix(b"\r\n").or(line.strip_suffix(b"\n")).unwrap_or(line);
    let mut fields = Fields::new(content, 0);
    fields.keyword("Plan")?;
    let wires = fields.number(0, u32::MAX)?;
    let limit = fields.number(0, u32::MAX)?;
    let capture = if fields.at_end() { limits::CAPTURE_IF_ABSENT } else { fields.number(0, u32::MAX)? };
    fields.end()?;
    Ok([wires, limit, capture])
}

fn lines(soc: &Soc, plan: &Plan) -> String {
    format!("soc {} {}", String::from_utf8_lossy(soc.name()), plan_lines(plan))
}

/// What a listing has of the plan alone: W, B and time, each bus, each planned module.
pub fn plan_lines(plan: &Plan) -> String {
    let mut out = format!("wires {} limit {} time {}\n", plan.wires.0, plan.limit, plan.time.0);
    for (index, bus) in plan.buses().iter().enumerate() {
        let _ = writeln!(out, "bus {} width {} busy {}", index + 1, bus.width.0, bus.busy.0);
    }
    for module in plan.modules() {
        let Planned { number, bus, wires, cycles, start } = module;
        let _ = writeln!(out, "module {number} bus {bus} wires {} cycles {} start {}", wires.0, cycles.0, start.0);
    }
    out
}
