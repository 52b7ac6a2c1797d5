//! Texts made wrong in one or a few places, and texts that are none.

use crate::random::Random;

/// Words that stand at a limit, look like a number, or belong elsewhere.
const WORDS: &[&str] = &[
    "0",
    "1",
    "2",
    "3",
    "7",
    "8",
    "9",
    "12",
    "13",
    "39",
    "40",
    "41",
    "42",
    "63",
    "64",
    "65",
    "4095",
    "4096",
    "4097",
    "8190",
    "8191",
    "8192",
    "999999",
    "1000000",
    "1000001",
    "16777214",
    "16777215",
    "16777216",
    "2147483647",
    "2147483648",
    "4294967295",
    "4294967296",
    "4294967297",
    "4294967298",
    "18446744073709551615",
    "18446744073709551616",
    "18446744073709551617",
    "340282366920938463463374607431768211457",
    "1000000000000000000000000000000",
    "-1",
    "-0",
    "-2",
    "-01",
    "--1",
    "+1",
    "+0",
    "00",
    "01",
    "007",
    "1x",
    "x1",
    "0x1",
    "1.0",
    "1,000",
    ":",
    "::",
    "2:",
    ":2",
    "X",
    "Y",
    "x",
    "Power",
    "XY",
    "Module",
    "module",
    "MODULE",
    "Test",
    "Tests",
    "TotalTests",
    "TotalModules",
    "Level",
    "Inputs",
    "Outputs",
    "Bidirs",
    "ScanChains",
    "ScanUse",
    "TamUse",
    "Patterns",
    "SocName",
    "Options",
    "Plan",
    "a",
    "_",
    "-",
    "a.b",
    "a/b",
    "nnnnnnnnnnnnnnnnnnnnnnnnnnnnnnnn",
    "nnnnnnnnnnnnnnnnnnnnnnnnnnnnnnnnn",
];

const BYTES: &[u8] = &[0, 1, 8, 9, 10, 11, 12, 13, 14, 31, 32, 33, 45, 48, 58, 126, 127, 128, 160, 255];

/// One fault among the fields and lines.
pub fn damage_lines(lines: &mut Vec<Vec<String>>, random: &mut Random) {
    if lines.is_empty() {
        return;
    }
    let at = random.below(lines.len());
    match random.below(20) {
        0..=11 => damage_fields(&mut lines[at], random),
        12 => drop(lines.remove(at)),
        13 => lines.insert(at, lines[at].clone()),
        14 => {
            let other = random.below(lines.len());
            lines.swap(at, other);
        }
        15 => lines.truncate(at),
        16 => lines.push(vec![random.pick(WORDS).to_string()]),
        17 => lines.push(lines[at].clone()),
        18 => {
            // One line becomes two.
            let split = random.below(lines[at].len() + 1);
            let rest = lines[at].split_off(split);
            lines.insert(at + 1, rest);
        }
        _ => {
            // Two lines become one.
            if at + 1 < lines.len() {
                let next = lines.remove(at + 1);
                lines[at].extend(next);
            }
        }
    }
}

/// Several faults on one line, of which the leftmost counts; often on a position line, where a rule spans two fields.
pub fn damage_one_line(lines: &mut [Vec<String>], random: &mut Random) {
    let positions: Vec<usize> = (0..lines.len()).filter(|&at| lines[at].get(2).is_some_and(|field| field == "X")).collect();
    let at = if positions.is_empty() || random.chance(60) { random.below(lines.len()) } else { *random.pick(&positions) };
    let line = &mut lines[at];
    if line.get(2).is_some_and(|field| field == "X") && random.chance(50) {
        let side = *random.pick(&[3, 5]);
        line[side] = random.pick(&["-1", "7", "1000001", "-2"]).to_string();
    } else {
        damage_fields(line, random);
    }
    if random.chance(50) {
        line.push(random.pick(WORDS).to_string());
    } else {
        damage_fields(line, random);
    }
}

/// A fault before or behind TamUse on a test line of module 0, or none; one behind it is never reached where TamUse is 1.
pub fn damage_test_of_module_0(lines: &mut [Vec<String>], random: &mut Random) {
    let of_module_0 = |line: &Vec<String>| line.len() > 9 && line[1] == "0" && line[2] == "Test";
    let tests: Vec<usize> = (0..lines.len()).filter(|&at| of_module_0(&lines[at])).collect();
    if tests.is_empty() {
        return;
    }
    let line = &mut lines[*random.pick(&tests)];
    let before = random.within(1, 7) as usize;
    match random.below(8) {
        0 => line.truncate(8),
        1 => line.truncate(9),
        2 => line[8] = any_word(random).to_string(),
        3 => line[9] = any_word(random).to_string(),
        4 => line.push(any_word(random).to_string()),
        5 => line[before] = any_word(random).to_string(),
        _ => {}
    }
}

fn damage_fields(line: &mut Vec<String>, random: &mut Random) {
    if line.is_empty() {
        return;
    }
    let at = random.below(line.len());
    match random.below(12) {
        0 => drop(line.remove(at)),
        1 => line.insert(at, line[at].clone()),
        2 => {
            let other = random.below(line.len());
            line.swap(at, other);
        }
        3 => line.truncate(at),
        4 => line.push(random.pick(WORDS).to_string()),
        5 => line[at].insert(0, *random.pick(&['0', '-', '+', ':', 'x'])),
        6 => line[at].push(*random.pick(&['0', '9', ':', 'x', 's'])),
        7..=8 => step_number(line, random),
        _ => line[at] = random.pick(WORDS).to_string(),
    }
}

/// Makes a number of the line one more or one less.
fn step_number(line: &mut [String], random: &mut Random) {
    let numbers: Vec<usize> = (0..line.len()).filter(|&at| line[at].parse::<i64>().is_ok()).collect();
    if !numbers.is_empty() {
        let field = &mut line[*random.pick(&numbers)];
        let number: i64 = field.parse().unwrap_or(0);
        *field = (number + random.pick(&[-1, 1])).to_string();
    }
}

/// One fault among the bytes.
pub fn damage_bytes(text: &mut Vec<u8>, random: &mut Random) {
    if text.is_empty() {
        return;
    }
    let at = random.below(text.len());
    match random.below(6) {
        0 => text[at] ^= 1 << random.below(8),
        1 => text[at] = *random.pick(BYTES),
        2 => text.insert(at, *random.pick(BYTES)),
        3 => drop(text.remove(at)),
        4 => text.truncate(at),
        _ => text.push(*random.pick(BYTES)),
    }
}

/// A text of words in no order, or of any bytes.
pub fn random_text(random: &mut Random) -> Vec<u8> {
    let length = random.below(60);
    match random.below(4) {
        0 => (0..length).map(|_| random.byte()).collect(),
        1 => (0..length).map(|_| random.within(9, 127) as u8).collect(),
        2 => (0..length).map(|_| *random.pick(b" \t\n\r\n 01")).collect(),
        _ => {
            let mut text = Vec::new();
            for _ in 0..length {
                text.extend_from_slice(random.pick(WORDS).as_bytes());
                text.push(*random.pick(b"   \n"));
            }
            text
        }
    }
}

pub fn any_word(random: &mut Random) -> &'static str {
    WORDS[random.below(WORDS.len())]
}
