//! Cases of a SOC text and an overlay.

use independent::soc::Soc;

use super::plans::any_plan_numbers;
use super::records::{any_capture, any_width};
use crate::at_limits::limit_in_lines;
use crate::case::{Case, Entry};
use crate::damage_text::{damage_bytes, damage_lines, damage_test_of_module_0};
use crate::make_soc::{any_shape, field_lines, make_soc, plan_module_0, styled, Shape};
use crate::random::Random;

type Lines = Vec<Vec<String>>;

/// The lines of an overlay with some blocks of a record, or with all of them.
fn overlay_lines(soc: &Soc, random: &mut Random) -> Lines {
    let all = random.chance(15);
    let kept: Vec<bool> = (0..soc.module_count).map(|_| all || random.chance(40)).collect();
    let one = random.below(kept.len());
    let lines = field_lines(soc, random);
    let mut overlay: Lines = vec![vec!["Overlay".to_string(), lines[0][1].clone()], lines[2].clone()];
    let of_module = |line: &&Vec<String>| {
        let module: usize = line[1].parse().expect("a line of a module has its number");
        kept[module] || module == one
    };
    overlay.extend(lines[3..].iter().filter(of_module).cloned());
    overlay
}

/// A record with the same name, options and levels, and other modules.
fn changed(soc: &Soc, random: &mut Random) -> Soc {
    let planned = random.within(0, (soc.module_count - 1).min(12));
    let shape = Shape { modules: soc.module_count, planned, large: random.chance(5) };
    let mut other = Soc { power: soc.power, xy: soc.xy, name: soc.name, name_length: soc.name_length, ..make_soc(shape, random) };
    for (module, base) in other.modules.iter_mut().zip(&soc.modules) {
        module.level = base.level;
    }
    other
}

/// What is asked of the combined description, beside the description itself.
const ASKED: &[Entry] = &[Entry::WritePair, Entry::LayoutPair, Entry::ModuleTimePair, Entry::ModuleWiresPair, Entry::PlanPair];

/// Every entry that takes a pair judges it in the same way.
fn case(soc: &Soc, base: &[u8], overlay: &[u8], random: &mut Random) -> Case {
    let entry = *if random.chance(50) { random.pick(&[Entry::ReadPair, Entry::ModuleLines]) } else { random.pick(ASKED) };
    let module = if random.chance(10) { soc.module_count } else { random.below(soc.module_count as usize) as u32 };
    let test = if random.chance(70) { 1 } else { random.within(0, 3) };
    let numbers = match entry {
        Entry::ReadPair | Entry::WritePair => [0; 4],
        Entry::ModuleLines => [module, 0, 0, 0],
        Entry::LayoutPair => [module, test, any_width(random), any_capture(random)],
        Entry::PlanPair => {
            let [wires, limit, capture] = any_plan_numbers(random);
            [wires, limit, capture, 0]
        }
        _ => [module, any_width(random), any_capture(random), 0],
    };
    Case::of_pair(entry, numbers, base, overlay)
}

/// The lines of both texts, which fit.
fn fitting(random: &mut Random) -> (Soc, Lines, Lines) {
    let soc = make_soc(any_shape(random), random);
    let other = changed(&soc, random);
    let base = field_lines(&soc, random);
    let overlay = overlay_lines(&other, random);
    (soc, base, overlay)
}

pub fn pair_good(random: &mut Random) -> Case {
    let (soc, base, overlay) = fitting(random);
    let (base, overlay) = (styled(&base, random), styled(&overlay, random));
    case(&soc, &base, &overlay, random)
}

pub fn pair_damaged(random: &mut Random) -> Case {
    let (soc, mut base, mut overlay) = fitting(random);
    if random.chance(80) {
        damage_lines(&mut overlay, random);
    }
    if random.chance(15) {
        damage_lines(&mut base, random);
    }
    let (base, mut overlay) = (styled(&base, random), styled(&overlay, random));
    if random.chance(15) {
        damage_bytes(&mut overlay, random);
    }
    case(&soc, &base, &overlay, random)
}

pub fn pair_limits(random: &mut Random) -> Case {
    let (soc, base, mut overlay) = fitting(random);
    limit_in_lines(&mut overlay, random);
    let (base, overlay) = (styled(&base, random), styled(&overlay, random));
    case(&soc, &base, &overlay, random)
}

/// An overlay, or now and then a base, in which a test of module 0 has TamUse 1; the name may differ as well.
pub fn pair_module_0(random: &mut Random) -> Case {
    let mut soc = make_soc(any_shape(random), random);
    let mut other = changed(&soc, random);
    plan_module_0(&mut other, random);
    if random.chance(10) {
        plan_module_0(&mut soc, random);
    }
    if random.chance(20) {
        other.name[0] = b'n';
    }
    let (base, mut overlay) = (field_lines(&soc, random), overlay_lines(&other, random));
    damage_test_of_module_0(&mut overlay, random);
    let (base, overlay) = (styled(&base, random), styled(&overlay, random));
    case(&soc, &base, &overlay, random)
}

/// An overlay of another record: name, options, modules and levels may differ.
pub fn pair_unfit(random: &mut Random) -> Case {
    let (soc, base, overlay) = fitting(random);
    let mut other = make_soc(any_shape(random), random);
    if random.chance(60) {
        (other.name, other.name_length) = (soc.name, soc.name_length);
    }
    let lines = if random.chance(80) { overlay_lines(&other, random) } else { overlay };
    let (base, overlay) = (styled(&base, random), styled(&lines, random));
    case(&soc, &base, &overlay, random)
}
