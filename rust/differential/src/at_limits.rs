//! Numbers set to their limits, and to what lies just past them.

use independent::limits;
use tallowwing_library::places::{module, soc, test};

use crate::random::Random;

/// Each keyword of the text with the least and the most that may follow it; `:` stands for the lengths.
const IN_TEXT: &[(&str, i64, i64)] = &[
    ("TotalModules", 1, limits::MODULES as i64),
    ("Level", 0, limits::LEVEL as i64),
    ("Inputs", 0, limits::TERMINALS as i64),
    ("Outputs", 0, limits::TERMINALS as i64),
    ("Bidirs", 0, limits::TERMINALS as i64),
    ("ScanChains", 0, limits::CHAINS as i64),
    (":", 1, limits::CHAIN_LENGTH as i64),
    ("X", -1, limits::POSITION as i64),
    ("Y", -1, limits::POSITION as i64),
    ("TotalTests", 0, limits::TESTS as i64),
    ("Patterns", 1, limits::PATTERNS as i64),
    ("Power", -1, limits::POWER as i64),
];

/// Offsets in a module of the SOC record, with the least and the most that may stand there.
const IN_MODULE: &[(usize, i64, i64)] = &[
    (module::LEVEL, 0, limits::LEVEL as i64),
    (module::INPUTS, 0, limits::TERMINALS as i64),
    (module::OUTPUTS, 0, limits::TERMINALS as i64),
    (module::BIDIRS, 0, limits::TERMINALS as i64),
    (module::CHAIN_COUNT, 0, limits::CHAINS as i64),
    (module::LENGTHS, 1, limits::CHAIN_LENGTH as i64),
    (module::X, -1, limits::POSITION as i64),
    (module::Y, -1, limits::POSITION as i64),
    (module::TEST_COUNT, 0, limits::TESTS as i64),
    (module::TESTS + test::PATTERNS, 1, limits::PATTERNS as i64),
    (module::TESTS + test::POWER, -1, limits::POWER as i64),
];

/// Sets one number of the text to a limit, or to one past it.
pub fn limit_in_lines(lines: &mut [Vec<String>], random: &mut Random) {
    let (keyword, least, most) = *random.pick(IN_TEXT);
    let places: Vec<(usize, usize)> = lines
        .iter()
        .enumerate()
        .flat_map(|(line, fields)| fields.iter().enumerate().filter(|(_, field)| *field == keyword).map(move |(at, _)| (line, at + 1)))
        .filter(|&(line, at)| at < lines[line].len())
        .collect();
    if !places.is_empty() {
        let (line, at) = *random.pick(&places);
        let number = about(least, most, random);
        lines[line][at] = number.to_string();
        // A pair of positions must agree, or the rule of the pair comes first.
        if (keyword == "X" || keyword == "Y") && number != -1 {
            let other = if keyword == "X" { at + 2 } else { at - 2 };
            if lines[line].get(other).is_some_and(|field| field == "-1") {
                lines[line][other] = "7".to_string();
            }
        }
    }
}

/// Sets one number of a module in the SOC record to a limit, or to one past it.
pub fn limit_in_record(record: &mut [u8], random: &mut Random) {
    let number = random.below(usize::from(record[soc::MODULE_COUNT]));
    let (offset, least, most) = *random.pick(IN_MODULE);
    let place = soc::module(number) + offset;
    let figure = about(least, most, random) as i32;
    record[place..place + 4].copy_from_slice(&figure.to_le_bytes());
}

fn about(least: i64, most: i64, random: &mut Random) -> i64 {
    *random.pick(&[least - 1, least, least + 1, most - 1, most, most + 1])
}
