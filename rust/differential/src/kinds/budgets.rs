//! Cases of the second planner.

use independent::budget::plan_within;
use independent::forms::soc_bytes;
use independent::limits;
use independent::soc::Soc;

use super::plans::{any_plan_numbers, planned_shape};
use super::records::any_capture;
use crate::case::Case;
use crate::make_soc::{make_soc, Shape};
use crate::random::Random;

/// The most tries that a case may take, so that none takes long.
const TRIES: u64 = 20_000;

/// Few modules: a budget about the tries that the search needs, about the number of modules, or any.
pub fn budget_small(random: &mut Random) -> Case {
    let soc = make_soc(planned_shape(random), random);
    let [wires, _, capture] = any_plan_numbers(random);
    let limit = any_limit(random);
    let numbers = [wires, limit, capture];
    let budget = any_budget(&soc, numbers, random);
    Case::of_budget(numbers, budget, soc_bytes(&soc))
}

/// Up to 39 modules, 64 wires and eight buses, of which a budget lets little be tried.
pub fn budget_large(random: &mut Random) -> Case {
    let planned = if random.chance(30) { limits::PLANNED as u32 } else { random.within(13, limits::PLANNED as u32) };
    let soc = make_soc(Shape { modules: planned + 1, planned, large: random.chance(5) }, random);
    let numbers = [random.within(1, limits::WIRES), any_limit(random), any_capture(random)];
    let budget = any_budget(&soc, numbers, random);
    Case::of_budget(numbers, budget, soc_bytes(&soc))
}

fn any_limit(random: &mut Random) -> u32 {
    match random.below(20) {
        0 => *random.pick(&[0, limits::BUSES as u32 + 1, 256, 257, 4_294_967_295]),
        _ => random.within(1, limits::BUSES as u32),
    }
}

fn any_budget(soc: &Soc, [wires, limit, capture]: [u32; 3], random: &mut Random) -> u64 {
    let planned = soc.modules().iter().filter(|module| module.planned()).count() as u64;
    // Where the search is longer than a case may take, the tries needed are not known, and no larger budget is given.
    let needed = plan_within(soc, wires, limit, capture, TRIES).ok().filter(|answer| answer.finished).map(|answer| answer.tries);
    let about = |count: u64, random: &mut Random| (count + 1).saturating_sub(random.below(3) as u64);
    match (random.below(10), needed) {
        (0, _) => *random.pick(&[0, limits::BUDGET + 1, 1 << 63, u64::MAX]),
        (1..=2, _) => about(planned, random),
        (3..=6, Some(needed)) => about(needed, random),
        (7, Some(_)) => *random.pick(&[limits::BUDGET, limits::BUDGET - 1, 1 << 32, (1 << 32) + 1]),
        (_, needed) => 1 + random.bits() % needed.unwrap_or(TRIES),
    }
}

#[cfg(test)]
mod tests {
    use super::*;

    /// Finished, unfinished with a plan, and unfinished without one.
    #[test]
    fn every_end_of_the_search_occurs() {
        for make in [budget_small, budget_large] {
            let mut ends = [0; 3];
            for number in 0..400 {
                let case = make(&mut Random::for_case(7, number));
                let mut answer = vec![0; independent::forms::BUDGET_BYTES];
                if case.ask_independent(&case.input, &mut answer).figure().is_some() {
                    ends[usize::from(answer[0] == 0) + usize::from(answer[4] == 0)] += 1;
                }
            }
            assert!(ends.iter().all(|&count| count > 5), "{ends:?}");
        }
    }
}
