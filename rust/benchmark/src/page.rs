//! The page: a table of ratios, and three on how the planner's cost grows.

use std::hint::black_box;
use std::time::Duration;

use independent::entries;
use tallowwing_library as library;

use crate::measure::{pair, Pair};
use crate::{inputs, machine};

pub fn print() {
    println!("# The library beside the independent implementation\n");
    println!("Machine: {}, {} cores.\n", machine::processor(), machine::cores());
    println!(
        "Both are called on the same bytes in one run, in turn; a time is the median of up to nine repetitions. The ratio is the \
         library's time over the independent implementation's. Bytes lent for results are not cleared between calls.\n"
    );
    head("Measured");
    row("reading a text of 60,000 bytes", &reading(&inputs::long()));
    row("reading d695", &reading(inputs::D695));
    row("table of times, d695 (every module at every width)", &times(inputs::D695));
    row("planner, d695, W 64, B 3", &planning(inputs::D695, 64, 3));
    row("planner, twelve equal modules, W 64, B 3", &planning(&inputs::twelve_equal(), 64, 3));
    row("planner, twelve modules whose time never falls, W 64, B 3", &planning(&inputs::twelve_that_never_fall(), 64, 3));
    row("planner, the largest SOC, twelve planned, W 64, B 3", &planning(&inputs::largest(), 64, 3));
    overlays();
    budgets();
    growth();
}

/// Both sides are the library: the pair, and the combined text that is read and planned.
fn overlays() {
    println!("\n## Planning a pair\n\nBoth by the library, in one run: the base and an overlay, and the combined text in their place.\n");
    println!("| Measured | pair | combined text | ratio |\n|---|---:|---:|---:|");
    row("d695 with examples/d695.overlay, W 64, B 3", &planning_a_pair(inputs::D695, inputs::D695_OVERLAY, 64, 3));
    row("twelve that never fall, an overlay of all of them", &never_falling_pair());
}

/// Tries of the planner with a spending limit, which both sides count alike.
const TRIES: u64 = 20_000_000;

/// The same number of tries on both sides: a ratio of 0.8 of the tries a second is one of 1.25 of the times.
fn budgets() {
    println!("\n## Tries within a budget\n\n{TRIES} tries of the planner with a spending limit, W 64 and B 8; tries a second.\n");
    println!("| Measured | library | independent | ratio |\n|---|---:|---:|---:|");
    for (name, text) in [("d695", inputs::D695.to_string()), ("39 modules that differ", inputs::mixed(39))] {
        let Pair { library, independent } = searching(&text, 64, 8, TRIES);
        let each_second = |time: Duration| TRIES as f64 / time.as_secs_f64().max(1e-9);
        let (one, other) = (each_second(library), each_second(independent));
        println!("| {name} | {:.0} million | {:.0} million | {:.2} |", one / 1e6, other / 1e6, one / other);
    }
}

fn searching(text: &str, wires: u32, limit: u32, tries: u64) -> Pair {
    let record = record(text);
    let (mut one, mut other) = (vec![0; library::BUDGET_BYTES], vec![0; library::BUDGET_BYTES]);
    pair(
        || {
            black_box(library::budget(black_box(&record), wires, limit, 1, tries, &mut one));
        },
        || {
            let _ = black_box(entries::budget(black_box(&record), wires, limit, 1, tries, &mut other));
        },
    )
}

fn never_falling_pair() -> Pair {
    let base = inputs::twelve_that_never_fall();
    planning_a_pair(&base, &inputs::overlay_of(&base), 64, 3)
}

fn growth() {
    println!("\n## How the planner's cost grows\n\nModules that differ, as in d695.\n");
    head("Modules, at W 64 and B 3");
    for modules in 1..=12 {
        row(&modules.to_string(), &planning(&inputs::mixed(modules), 64, 3));
    }
    println!();
    head("Wires, at twelve modules and B 3");
    for wires in (8..=64).step_by(8) {
        row(&wires.to_string(), &planning(&inputs::mixed(12), wires, 3));
    }
    println!();
    head("Buses, at twelve modules and W 64");
    for limit in 1..=3 {
        row(&limit.to_string(), &planning(&inputs::mixed(12), 64, limit));
    }
}

fn head(first: &str) {
    println!("| {first} | library | independent | ratio |\n|---|---:|---:|---:|");
}

fn row(name: &str, pair: &Pair) {
    println!("| {name} | {} | {} | {:.2} |", told(pair.library), told(pair.independent), pair.ratio());
}

/// A time in the unit that suits it.
fn told(time: Duration) -> String {
    match time.as_secs_f64() {
        seconds if seconds >= 1.0 => format!("{seconds:.2} s"),
        seconds if seconds >= 1e-3 => format!("{:.2} ms", seconds * 1e3),
        seconds => format!("{:.1} µs", seconds * 1e6),
    }
}

fn record(text: &str) -> Vec<u8> {
    let mut record = vec![0; library::SOC_BYTES];
    let answer = library::read_soc(text.as_bytes(), &mut record);
    assert!(answer.figure().is_some(), "the text is good: {answer:?}");
    record
}

fn reading(text: &str) -> Pair {
    let text = text.as_bytes();
    let (mut one, mut other) = (vec![0; library::SOC_BYTES], vec![0; library::SOC_BYTES]);
    pair(
        || {
            black_box(library::read_soc(black_box(text), &mut one));
        },
        || {
            let _ = black_box(entries::read_soc(black_box(text), &mut other));
        },
    )
}

/// Every module's time at every width, one call each.
fn times(text: &str) -> Pair {
    let record = record(text);
    let asked: Vec<(u32, u32)> =
        (0..u32::from(record[library::places::soc::MODULE_COUNT])).flat_map(|module| (1..=64).map(move |width| (module, width))).collect();
    pair(
        || {
            for &(module, width) in &asked {
                black_box(library::module_time(black_box(&record), module, width, 1));
            }
        },
        || {
            for &(module, width) in &asked {
                let _ = black_box(entries::module_time(black_box(&record), module, width, 1));
            }
        },
    )
}

fn planning(text: &str, wires: u32, limit: u32) -> Pair {
    let record = record(text);
    let (mut one, mut other) = (vec![0; library::PLAN_BYTES], vec![0; library::PLAN_BYTES]);
    pair(
        || {
            black_box(library::plan(black_box(&record), wires, limit, 1, &mut one));
        },
        || {
            let _ = black_box(entries::plan(black_box(&record), wires, limit, 1, &mut other));
        },
    )
}

fn planning_a_pair(base: &str, overlay: &str, wires: u32, limit: u32) -> Pair {
    let (base, overlay) = (base.as_bytes(), overlay.as_bytes());
    let mut combined = vec![0; library::TEXT_MAX];
    let length = library::write_pair(base, overlay, &mut combined).figure().expect("the pair is good") as usize;
    let combined = &combined[..length];
    let (mut one, mut other, mut record) = (vec![0; library::PLAN_BYTES], vec![0; library::PLAN_BYTES], vec![0; library::SOC_BYTES]);
    pair(
        || {
            black_box(library::plan_pair(black_box(base), black_box(overlay), wires, limit, 1, &mut one));
        },
        || {
            black_box(library::read_soc(black_box(combined), &mut record));
            black_box(library::plan(black_box(&record), wires, limit, 1, &mut other));
        },
    )
}
