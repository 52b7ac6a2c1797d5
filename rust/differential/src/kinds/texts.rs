//! Cases of SOC texts.

use independent::limits;

use crate::at_limits::limit_in_lines;
use crate::case::{Case, Entry};
use crate::damage_text::{damage_bytes, damage_lines, damage_one_line, damage_test_of_module_0, random_text};
use crate::make_soc::{any_shape, field_lines, make_soc, plan_module_0, styled};
use crate::random::Random;

pub fn good_text(random: &mut Random) -> Vec<u8> {
    let soc = make_soc(any_shape(random), random);
    styled(&field_lines(&soc, random), random)
}

pub fn damaged_text(random: &mut Random) -> Vec<u8> {
    let soc = make_soc(any_shape(random), random);
    let mut lines = field_lines(&soc, random);
    let faults = if random.chance(70) { 1 } else { random.within(2, 3) };
    let in_bytes = random.chance(25);
    for _ in 0..faults {
        if !in_bytes {
            damage_lines(&mut lines, random);
        }
    }
    let mut text = styled(&lines, random);
    for _ in 0..faults {
        if in_bytes {
            damage_bytes(&mut text, random);
        }
    }
    text
}

/// A text in which a test of module 0 has TamUse 1, now and then with a further fault.
pub fn text_with_module_0_planned(random: &mut Random) -> Vec<u8> {
    let mut soc = make_soc(any_shape(random), random);
    plan_module_0(&mut soc, random);
    let mut lines = field_lines(&soc, random);
    damage_test_of_module_0(&mut lines, random);
    if random.chance(20) {
        damage_lines(&mut lines, random);
    }
    styled(&lines, random)
}

/// A text filled up with blank lines or blanks to about 61,440 bytes.
pub fn long_text(random: &mut Random) -> Vec<u8> {
    let mut text = if random.chance(80) { good_text(random) } else { damaged_text(random) };
    let length = limits::TEXT_BYTES - 2 + random.below(5);
    let filler = *random.pick(b"\n \x07");
    let at = if random.chance(50) { 0 } else { text.len() };
    let fill = vec![filler; length.saturating_sub(text.len())];
    text.splice(at..at, fill);
    text
}

pub fn text_good(random: &mut Random) -> Case {
    Case::new(Entry::ReadSoc, [], good_text(random))
}

pub fn text_damaged(random: &mut Random) -> Case {
    Case::new(Entry::ReadSoc, [], damaged_text(random))
}

pub fn text_module_0(random: &mut Random) -> Case {
    Case::new(Entry::ReadSoc, [], text_with_module_0_planned(random))
}

pub fn text_limits(random: &mut Random) -> Case {
    let soc = make_soc(any_shape(random), random);
    let mut lines = field_lines(&soc, random);
    limit_in_lines(&mut lines, random);
    Case::new(Entry::ReadSoc, [], styled(&lines, random))
}

pub fn text_one_line(random: &mut Random) -> Case {
    let soc = make_soc(any_shape(random), random);
    let mut lines = field_lines(&soc, random);
    damage_one_line(&mut lines, random);
    Case::new(Entry::ReadSoc, [], styled(&lines, random))
}

pub fn text_random(random: &mut Random) -> Case {
    Case::new(Entry::ReadSoc, [], random_text(random))
}

pub fn text_long(random: &mut Random) -> Case {
    Case::new(Entry::ReadSoc, [], long_text(random))
}
