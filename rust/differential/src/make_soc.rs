//! Good SOC records of many shapes, and their texts in many styles.

use independent::limits;
use independent::soc::{Module, Soc, Test, NOT_GIVEN};
use independent::soc_written::written;
use independent::units::FlipFlops;

use crate::random::Random;

/// How many modules a record has and how many of them are planned; module 0 never is.
#[derive(Clone, Copy)]
pub struct Shape {
    pub modules: u32,
    pub planned: u32,
    /// Chains, terminals and patterns up to their limits, which makes wrappers slow to lay out.
    pub large: bool,
}

/// Mostly few modules, now and then up to 40 of them.
pub fn any_shape(random: &mut Random) -> Shape {
    let modules = if random.chance(90) { random.within(1, 6) } else { random.within(7, limits::MODULES as u32) };
    Shape { modules, planned: random.within(0, (modules - 1).min(12)), large: random.chance(5) }
}

pub fn make_soc(shape: Shape, random: &mut Random) -> Soc {
    let mut soc = Soc { power: random.chance(50), xy: random.chance(50), module_count: shape.modules, ..Soc::spare() };
    make_name(&mut soc, random);
    // Equal modules make plans of equal time, of which the first counts.
    let alike = random.chance(20);
    let mut previous: Option<Module> = None;
    let mut planned_left = shape.planned;
    for number in 0..shape.modules {
        let modules_left = shape.modules - number;
        let planned = number > 0 && random.within(1, modules_left) <= planned_left;
        planned_left -= u32::from(planned);
        let mut module = match previous {
            Some(previous) if alike && previous.planned() == planned => previous,
            _ => make_module(&soc, planned, shape.large, random),
        };
        module.level = previous.map_or(0, |previous| random.within(1, (previous.level + 1).min(limits::LEVEL)));
        soc.modules[number as usize] = module;
        previous = Some(module);
    }
    debug_assert_eq!(soc.check(), Ok(()));
    soc
}

/// Gives module 0 tests of which one has TamUse 1, so that the text is refused with 17 and the record with 14.
pub fn plan_module_0(soc: &mut Soc, random: &mut Random) {
    let mut module = soc.modules[0];
    module.tests = Module::SPARE.tests;
    make_tests(&mut module, soc, true, false, random);
    soc.modules[0] = module;
}

fn make_name(soc: &mut Soc, random: &mut Random) {
    let bytes = b"abcxyzABCXYZ0189_-";
    soc.name_length = if random.chance(80) { random.within(1, 8) } else { random.within(1, limits::NAME_BYTES as u32) };
    for byte in &mut soc.name[..soc.name_length as usize] {
        *byte = *random.pick(bytes);
    }
}

pub fn make_module(soc: &Soc, planned: bool, large: bool, random: &mut Random) -> Module {
    let mut module = Module { x: NOT_GIVEN, y: NOT_GIVEN, ..Module::SPARE };
    for terminals in [&mut module.inputs, &mut module.outputs, &mut module.bidirs] {
        *terminals = make_terminals(large, random);
    }
    make_chains(&mut module, large, random);
    if soc.xy && random.chance(60) {
        module.x = make_figure(limits::POSITION, random);
        module.y = make_figure(limits::POSITION, random);
    }
    make_tests(&mut module, soc, planned, large, random);
    module
}

fn make_terminals(large: bool, random: &mut Random) -> u32 {
    match random.below(10) {
        0..=3 => 0,
        4..=7 => random.within(1, 9),
        8 => random.within(1, 200),
        _ if large => limits::TERMINALS - random.within(0, 1),
        _ => random.within(1, 40),
    }
}

fn make_chains(module: &mut Module, large: bool, random: &mut Random) {
    module.chain_count = match random.below(10) {
        0..=2 => 0,
        3..=7 => random.within(1, 7),
        8 => random.within(8, 40),
        _ => random.within(60, limits::CHAINS as u32),
    };
    // Few lengths in a narrow range make ties, and figures that rise with the width.
    let (least, most) = match random.below(4) {
        0 => (1, 6),
        1 => (30, 33),
        2 => (1, 300),
        _ if large => (1, limits::CHAIN_LENGTH),
        _ => (1, 20),
    };
    for length in &mut module.lengths[..module.chain_count as usize] {
        *length = FlipFlops(if random.chance(3) { *random.pick(&[1, limits::CHAIN_LENGTH]) } else { random.within(least, most) });
    }
}

fn make_tests(module: &mut Module, soc: &Soc, planned: bool, large: bool, random: &mut Random) {
    let least = u32::from(planned);
    module.test_count = if random.chance(85) { random.within(least, 2) } else { random.within(least, limits::TESTS as u32) };
    let count = module.test_count as usize;
    for test in &mut module.tests[..count] {
        *test = Test {
            scan_use: random.chance(70),
            tam_use: planned && random.chance(60),
            patterns: make_patterns(large, random),
            power: NOT_GIVEN,
        };
        if soc.power && random.chance(60) {
            test.power = make_figure(limits::POWER, random);
        }
    }
    if planned {
        module.tests[random.below(count)].tam_use = true;
    }
}

fn make_patterns(large: bool, random: &mut Random) -> u32 {
    match random.below(10) {
        0..=5 => random.within(1, 12),
        6..=8 => random.within(1, 5_000),
        _ if large => limits::PATTERNS - random.within(0, 1),
        _ => random.within(1, limits::PATTERNS),
    }
}

fn make_figure(limit: u32, random: &mut Random) -> i32 {
    let figure = if random.chance(20) { *random.pick(&[0, 1, limit - 1, limit]) } else { random.within(0, limit) };
    figure as i32
}

/// The fields of the written form, line by line, with some of the figures that are not given left out.
pub fn field_lines(soc: &Soc, random: &mut Random) -> Vec<Vec<String>> {
    let mut lines: Vec<Vec<String>> = written(soc).lines().map(|line| line.split(' ').map(String::from).collect()).collect();
    lines.retain(|line| !(line.len() == 6 && line[2] == "X" && line[3] == "-1" && random.chance(40)));
    for line in &mut lines {
        let length = line.len();
        if length == 12 && line[10] == "Power" && line[11] == "-1" && random.chance(40) {
            line.truncate(10);
        }
    }
    lines
}

/// Lines as bytes: fields parted and lines ended in one of the ways that are allowed.
pub fn styled(lines: &[Vec<String>], random: &mut Random) -> Vec<u8> {
    let plain = random.chance(50);
    let crlf = random.chance(30);
    let mut text = Vec::new();
    for line in lines {
        for (index, field) in line.iter().enumerate() {
            let blanks = if plain { &[" "][..] } else { &[" ", "\t", "  ", " \t", "\t\t "][..] };
            if index > 0 || (!plain && random.chance(10)) {
                text.extend_from_slice(random.pick(blanks).as_bytes());
            }
            text.extend_from_slice(field.as_bytes());
        }
        if !plain && random.chance(10) {
            text.extend_from_slice(b" \t");
        }
        let end: &[u8] = if crlf || (!plain && random.chance(10)) { b"\r\n" } else { b"\n" };
        text.extend_from_slice(end);
        if !plain && random.chance(15) {
            text.extend_from_slice(random.pick(&["\n", " \n", "\r\n", "\t\r\n", "\n\n"]).as_bytes());
        }
    }
    if random.chance(20) {
        let end = text.strip_suffix(b"\r\n").or(text.strip_suffix(b"\n")).unwrap_or(&text).len();
        text.truncate(end);
    }
    text
}
