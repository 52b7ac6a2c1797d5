//! The kinds of cases: how each is made, how often, and what must come of it at least once.

mod budgets;
mod listings;
mod pairs;
mod plans;
mod records;
pub mod texts;

use independent::forms::{BUDGET_BYTES, LAYOUT_BYTES, PLAN_BYTES, SOC_BYTES};
use independent::limits;

use crate::case::{Case, Entry};
use crate::random::Random;

pub struct Kind {
    pub name: &'static str,
    /// So many of the sum of all shares.
    pub share: usize,
    make: fn(&mut Random) -> Case,
    /// Outcomes that a long run must have met: refusal numbers, and 0 for "accepted".
    pub must_occur: &'static [u8],
}

/// The kind whose cases take longest by far.
pub const SLOW: &str = "plan, twelve modules on 64 wires";

pub const KINDS: &[Kind] = &[
    Kind { name: "text, good", share: 100, make: texts::text_good, must_occur: &[0, 11] },
    Kind { name: "text, damaged", share: 250, make: texts::text_damaged, must_occur: &[0, 2, 3, 4, 5, 6, 11] },
    Kind { name: "text, numbers at their limits", share: 100, make: texts::text_limits, must_occur: &[0, 3, 4, 5, 6, 11] },
    Kind { name: "text, several faults in a line", share: 80, make: texts::text_one_line, must_occur: &[3, 4, 5] },
    Kind { name: "text, module 0 with TamUse 1", share: 50, make: texts::text_module_0, must_occur: &[3, 4, 5, 17] },
    Kind { name: "text, random", share: 40, make: texts::text_random, must_occur: &[2, 3, 6] },
    Kind { name: "text, about the longest", share: 8, make: texts::text_long, must_occur: &[0, 1] },
    Kind { name: "SOC record, good", share: 60, make: records::soc_good, must_occur: &[0, 11] },
    Kind { name: "SOC record, damaged", share: 150, make: records::soc_damaged, must_occur: &[0, 14] },
    Kind { name: "SOC record, numbers at their limits", share: 100, make: records::soc_limits, must_occur: &[0, 14] },
    Kind { name: "SOC record, module 0 with TamUse 1", share: 20, make: records::soc_module_0, must_occur: &[14] },
    Kind { name: "layout", share: 120, make: records::layout, must_occur: &[0, 7, 11, 13, 16] },
    Kind { name: "module time", share: 40, make: records::module_time, must_occur: &[0, 7, 13, 16] },
    Kind { name: "module wires", share: 40, make: records::module_wires, must_occur: &[0, 7, 13, 16] },
    Kind { name: "plan, small", share: 90, make: plans::plan_small, must_occur: &[0, 7, 8, 9, 10, 11, 16] },
    Kind { name: SLOW, share: 2, make: plans::plan_large, must_occur: &[0] },
    Kind { name: "budget, about the tries needed", share: 90, make: budgets::budget_small, must_occur: &[0, 7, 8, 9, 11, 16, 18] },
    Kind { name: "budget, many modules", share: 30, make: budgets::budget_large, must_occur: &[0, 11, 18] },
    Kind { name: "plan record, good", share: 60, make: plans::plan_record_good, must_occur: &[0, 11] },
    Kind { name: "plan record, damaged", share: 150, make: plans::plan_record_damaged, must_occur: &[0, 12] },
    Kind { name: "plan record or file, most cycles", share: 40, make: plans::plan_most_cycles, must_occur: &[0, 11, 12] },
    Kind { name: "plan file, good", share: 40, make: plans::plan_file_good, must_occur: &[0, 11] },
    Kind { name: "plan file, old form", share: 10, make: plans::plan_file_old, must_occur: &[12] },
    Kind { name: "plan file, damaged", share: 90, make: plans::plan_file_damaged, must_occur: &[0, 12] },
    Kind { name: "listing, good", share: 40, make: listings::listing_good, must_occur: &[0, 11] },
    Kind { name: "listing, faulty first line", share: 60, make: listings::listing_line, must_occur: &[0, 3, 4, 6] },
    Kind {
        name: "listing, other faults",
        share: 90,
        make: listings::listing_faults,
        must_occur: &[0, 1, 2, 3, 4, 5, 6, 7, 8, 9, 10, 16, 17],
    },
    Kind { name: "pair, good", share: 80, make: pairs::pair_good, must_occur: &[0, 7, 9, 11, 13, 16] },
    Kind { name: "pair, damaged", share: 150, make: pairs::pair_damaged, must_occur: &[0, 2, 3, 4, 5, 6, 13, 15] },
    Kind { name: "pair, numbers at their limits", share: 60, make: pairs::pair_limits, must_occur: &[0, 3, 4, 5, 6, 15] },
    Kind { name: "pair, module 0 with TamUse 1", share: 50, make: pairs::pair_module_0, must_occur: &[0, 15, 17] },
    Kind { name: "pair, of two texts", share: 60, make: pairs::pair_unfit, must_occur: &[0, 15] },
];

/// The case of a number, and the index of its kind.
pub fn make_case(seed: u64, number: u64) -> (usize, Case) {
    let mut random = Random::for_case(seed, number);
    let mut left = random.below(KINDS.iter().map(|kind| kind.share).sum());
    let mut index = 0;
    while left >= KINDS[index].share {
        left -= KINDS[index].share;
        index += 1;
    }
    let case = (KINDS[index].make)(&mut random);
    (index, with_room(case, &mut random))
}

/// Lends exactly what the result takes, one byte less, more, or nothing.
fn with_room(mut case: Case, random: &mut Random) -> Case {
    if case.entry.writes() {
        let exact = exact_room(&case);
        case.room = match random.below(20) {
            0..=9 => exact,
            10..=11 => exact.saturating_sub(1),
            12..=16 => exact + 1 + random.below(100),
            17 => random.below(exact + 1),
            18 => 0,
            _ => exact + limits::TEXT_BYTES,
        };
    }
    case
}

/// The length of the result, or a likely one where the call is refused.
fn exact_room(case: &Case) -> usize {
    match case.entry {
        Entry::ReadSoc | Entry::ReadPair => SOC_BYTES,
        Entry::Layout | Entry::LayoutPair => LAYOUT_BYTES,
        Entry::Plan | Entry::PlanPair | Entry::ReadPlan => PLAN_BYTES,
        Entry::Budget => BUDGET_BYTES,
        _ => {
            let mut lent = vec![0; limits::TEXT_BYTES];
            case.ask_independent(&case.input, &mut lent).figure().map_or(limits::PLAN_FILE_BYTES, |length| length as usize)
        }
    }
}
