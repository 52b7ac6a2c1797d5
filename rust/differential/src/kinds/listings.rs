//! Cases of the printing program.

use super::plans::{any_plan_numbers, planned_shape};
use super::records::any_capture;
use super::texts::{damaged_text, long_text, text_with_module_0_planned};
use crate::case::{Case, Entry};
use crate::damage_text::{any_word, damage_bytes, random_text};
use crate::make_soc::{field_lines, make_soc, styled, Shape};
use crate::random::Random;

pub fn planned_text(random: &mut Random) -> Vec<u8> {
    let soc = make_soc(planned_shape(random), random);
    styled(&field_lines(&soc, random), random)
}

pub fn list(first: &[u8], text: &[u8]) -> Case {
    Case::new(Entry::Listing, [], [first, text].concat())
}

pub fn listing_good(random: &mut Random) -> Case {
    let shape = Shape { modules: 7, planned: random.within(1, 6), large: false };
    let soc = make_soc(shape, random);
    let third = if random.chance(50) { format!(" {}", random.within(1, 4)) } else { String::new() };
    let line = format!("Plan {} {}{third}\n", random.within(1, 12), random.within(1, 3));
    list(line.as_bytes(), &styled(&field_lines(&soc, random), random))
}

/// First lines with a fault in their fields, bytes, blanks, length or end.
pub fn listing_line(random: &mut Random) -> Case {
    let mut fields: Vec<String> = vec!["Plan".into(), random.within(1, 9).to_string(), random.within(1, 3).to_string()];
    if random.chance(60) {
        fields.push(any_capture(random).to_string());
    }
    match random.below(8) {
        0..=2 => {
            let at = random.below(fields.len());
            fields[at] = any_word(random).to_string();
        }
        3 => drop(fields.remove(random.below(fields.len()))),
        4 => fields.push(any_word(random).to_string()),
        5 if random.chance(50) => fields.clear(),
        5 => fields.resize(random.within(4, 6) as usize, "1".to_string()),
        _ => {}
    }
    let mut line = fields.join(*random.pick(&[" ", "\t", "  "])).into_bytes();
    if random.chance(40) {
        // The longest line has 32 bytes with its end.
        let length = random.within(28, 34) as usize;
        let at = *random.pick(&[0, line.len()]);
        line.splice(at..at, vec![*random.pick(b" \tx"); length.saturating_sub(line.len())]);
    }
    if random.chance(20) {
        damage_bytes(&mut line, random);
    }
    line.extend_from_slice(random.pick::<&[u8]>(&[b"\n", b"\n", b"\n", b"\r\n", b"\r\r\n", b"\r", b"", b" \n"]));
    let text = if random.chance(70) { planned_text(random) } else { Vec::new() };
    list(&line, &text)
}

/// Faults behind the first line, and those that the planner finds.
pub fn listing_faults(random: &mut Random) -> Case {
    let [wires, limit, capture] = any_plan_numbers(random);
    let third = if random.chance(70) { format!(" {capture}") } else { String::new() };
    let line = format!("Plan {wires} {limit}{third}\n");
    let text = match random.below(20) {
        0..=11 => damaged_text(random),
        12 => long_text(random),
        13 => random_text(random),
        14 => text_with_module_0_planned(random),
        _ => planned_text(random),
    };
    list(line.as_bytes(), &text)
}
