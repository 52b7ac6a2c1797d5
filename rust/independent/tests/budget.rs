//! The second planner: its counts of tries, what a budget leaves of the search, and its refusals.

mod common;

use common::small::{by_listing_all, choice, random_soc, Random};
use common::{soc, t1, D695, MODULE_0};
use independent::budget::{plan_within, Budgeted};
use independent::entries;
use independent::forms::{plan_bytes, soc_bytes, BUDGET_BYTES, PLAN_BYTES};
use independent::limits::BUDGET;
use independent::planner::plan;
use independent::refusal::Refusal;
use independent::soc::Soc;

fn within(soc: &Soc, wires: u32, limit: u32, capture: u32, budget: u64) -> Budgeted {
    plan_within(soc, wires, limit, capture, budget).unwrap()
}

/// A text with so many planned modules, module m with m patterns of one cell.
fn many(count: usize) -> Soc {
    let module = |m: usize| {
        format!(
            "Module {m} Level 1 Inputs 1 Outputs 0 Bidirs 0 ScanChains 0 :\nModule {m} TotalTests 1\n\
             Module {m} Test 1 ScanUse 0 TamUse 1 Patterns {m}\n"
        )
    };
    let modules: String = (1..=count).map(module).collect();
    soc(&format!("SocName n\nTotalModules {}\nOptions Power 0 XY 0\n{MODULE_0}{modules}", count + 1))
}

#[test]
fn d695_needs_328_463_tries() {
    let d695 = soc(D695);
    let best = plan(&d695, 64, 3, 1).unwrap();
    let answer = within(&d695, 64, 3, 1, 328_463);
    assert_eq!(answer, Budgeted { finished: true, tries: 328_463, plan: Some(best.clone()) });
    assert_eq!(within(&d695, 64, 3, 1, BUDGET), answer);
    let unfinished = within(&d695, 64, 3, 1, 328_462);
    assert_eq!((unfinished.finished, unfinished.tries), (false, 328_462));
    assert_eq!(unfinished.plan.map(|plan| plan.time), Some(best.time));
}

/// By hand, at W 2 and B 2: on one bus of two wires modules 1 and 2 take 65 and 13 cycles, together 78, in two tries. On two buses of a
/// wire they take 65 and 18, and 78 is the time to beat: 1 on bus 1 (65), 2 on bus 1 (83, dropped), 2 on bus 2 (18, completed with 65); 1
/// on bus 2 (65, dropped).
#[test]
fn t1_by_hand() {
    let t1 = soc(&t1());
    let times = [1, 2, 3, 4, 5, 6, 7].map(|budget| {
        let answer = within(&t1, 2, 2, 1, budget);
        (answer.finished, answer.tries, answer.plan.map(|plan| plan.time.0))
    });
    let expected = [
        (false, 1, None),
        (false, 2, Some(78)),
        (false, 3, Some(78)),
        (false, 4, Some(78)),
        (false, 5, Some(65)),
        (true, 6, Some(65)),
        (true, 6, Some(65)),
    ];
    assert_eq!(times, expected);
}

/// The count of the definition once more, without a budget: a stack of tries in place of the recursion.
fn tries_needed(soc: &Soc, wires: u32, limit: u32, capture: u32) -> u64 {
    use independent::planner::{planned_modules, table, width_lists};
    use independent::units::{Capture, Wires};
    let table = table(soc, &planned_modules(soc), Wires(wires), Capture(capture));
    let (mut tries, mut best) = (0, None);
    for widths in (1..=limit.min(wires)).flat_map(|count| width_lists(count, Wires(wires))) {
        // The buses of the modules placed so far and the bus to be tried; the last is tried first.
        let all = |placed: &[usize]| (0..widths.len()).rev().map(|bus| [placed, &[bus]].concat()).collect::<Vec<_>>();
        let mut due = all(&[]);
        while let Some(buses) = due.pop() {
            tries += 1;
            let busy = |bus: usize| -> u64 {
                let on_it = buses.iter().zip(&table).filter(|(&other, _)| other == bus);
                on_it.map(|(_, times)| times[widths[bus].0 as usize - 1].cycles.0).sum()
            };
            let dropped = best.is_some_and(|best| busy(buses[buses.len() - 1]) >= best);
            if !dropped && buses.len() == table.len() {
                let time = (0..widths.len()).map(busy).max().unwrap();
                best = Some(best.map_or(time, |best: u64| best.min(time)));
            } else if !dropped {
                due.extend(all(&buses));
            }
        }
    }
    tries
}

#[test]
fn the_first_of_least_time_for_every_limit() {
    let mut random = Random(77);
    for case in 0..400 {
        let soc = random_soc(&mut random);
        let [wires, limit, capture] = [8, 8, 4].map(|most| 1 + random.below(most) as u32);
        let answer = within(&soc, wires, limit, capture, BUDGET);
        assert!(answer.finished);
        assert_eq!(answer.tries, tries_needed(&soc, wires, limit, capture), "case {case}");
        let found = answer.plan.unwrap();
        assert_eq!(choice(&found), by_listing_all(&soc, wires, limit, capture), "case {case}");
        assert_eq!(found.check(), Ok(()));
        if limit <= 3 {
            assert_eq!(plan(&soc, wires, limit, capture), Ok(found));
        }
    }
}

#[test]
fn what_a_budget_leaves() {
    let mut random = Random(78);
    for _ in 0..40 {
        let soc = random_soc(&mut random);
        let [wires, limit, capture] = [7, 8, 4].map(|most| 1 + random.below(most) as u32);
        let whole = within(&soc, wires, limit, capture, BUDGET);
        let planned = u64::from(whole.plan.as_ref().unwrap().module_count);
        let mut time = None;
        for budget in 1..=whole.tries + 2 {
            let answer = within(&soc, wires, limit, capture, budget);
            assert_eq!(answer.finished, whole.tries <= budget);
            assert_eq!(answer.tries, budget.min(whole.tries));
            assert_eq!(answer.plan.is_some(), planned <= budget);
            let now = answer.plan.as_ref().map(|plan| plan.time);
            assert!(time.is_none() || now.is_some_and(|now| Some(now) <= time), "a larger budget gave a slower plan");
            time = now;
            if answer.finished {
                assert_eq!(answer.plan, whole.plan);
            }
        }
    }
}

#[test]
fn as_many_modules_as_a_text_can_have() {
    let soc = many(39);
    let none = within(&soc, 64, 8, 4, 38);
    assert_eq!(none, Budgeted { finished: false, tries: 38, plan: None });
    let one = within(&soc, 64, 8, 4, 39);
    assert_eq!((one.finished, one.tries, one.plan.as_ref().map(|plan| plan.bus_count)), (false, 39, Some(1)));
    let more = within(&soc, 64, 8, 4, 100_000);
    assert_eq!((more.finished, more.tries), (false, 100_000));
    assert_eq!(more.plan.unwrap().check(), Ok(()));
    // One bus takes one try for each module, and then nothing is left to try.
    assert_eq!(within(&soc, 64, 1, 1, 39), within(&soc, 64, 1, 1, BUDGET));
    assert_eq!(within(&soc, 1, 8, 1, 39).finished, within(&soc, 1, 8, 1, BUDGET).finished);
    assert!(within(&soc, 64, 1, 1, 39).finished);
}

#[test]
fn bytes_of_the_answer() {
    let t1 = soc(&t1());
    let record = soc_bytes(&t1);
    let mut lent = [7; BUDGET_BYTES + 1];
    let number = |lent: &[u8], offset: usize| u32::from_le_bytes(lent[offset..offset + 4].try_into().unwrap());
    assert_eq!(entries::budget(&record, 2, 2, 1, 5, &mut lent), Ok(1_228));
    assert_eq!([0, 4, 8, 12].map(|offset| number(&lent, offset)), [0, 1, 5, 0]);
    assert_eq!((&lent[16..16 + PLAN_BYTES], lent[BUDGET_BYTES]), (&plan_bytes(&plan(&t1, 2, 2, 1).unwrap())[..], 7));
    assert_eq!(entries::budget(&record, 2, 2, 1, 6, &mut lent), Ok(1_228));
    assert_eq!([0, 4, 8, 12].map(|offset| number(&lent, offset)), [1, 1, 6, 0]);
    assert_eq!(entries::budget(&record, 2, 2, 1, 1, &mut lent), Ok(1_228));
    assert_eq!([0, 4, 8, 12].map(|offset| number(&lent, offset)), [0, 0, 1, 0]);
    assert!(lent[16..BUDGET_BYTES].iter().all(|&byte| byte == 0));
}

#[test]
fn refuses_14_then_7_then_8_then_16_then_9_then_18_then_11() {
    let none = soc_bytes(&soc(&t1().replace("TamUse 1", "TamUse 0")));
    let good = soc_bytes(&soc(&t1()));
    let asked: [(&[u8], [u32; 3], u64, u8); 16] = [
        (&good[1..], [0, 0, 0], 0, 14),
        (&none, [0, 0, 0], 0, 7),
        (&none, [65, 9, 5], 0, 7),
        (&none, [64, 0, 0], 0, 8),
        (&none, [1, 9, 5], 0, 8),
        (&none, [1, u32::MAX, 5], 0, 8),
        (&none, [1, 8, 0], 0, 16),
        (&none, [1, 1, 5], 0, 16),
        (&none, [1, 8, 4], 0, 9),
        (&none, [1, 8, 4], BUDGET + 1, 9),
        (&good, [1, 8, 4], 0, 18),
        (&good, [1, 8, 4], BUDGET + 1, 18),
        (&good, [64, 1, 1], u64::MAX, 18),
        (&good, [64, 1, 1], 1 << 63, 18),
        (&good, [64, 8, 1], BUDGET, 11),
        (&good, [64, 8, 1], 1, 11),
    ];
    for (record, [wires, limit, capture], budget, number) in asked {
        let mut lent = [7; BUDGET_BYTES - 1];
        let answer = entries::budget(record, wires, limit, capture, budget, &mut lent);
        assert_eq!(answer, Err(Refusal::new(number)), "{wires} {limit} {capture} {budget}");
        assert!(lent.iter().all(|&byte| byte == 7));
    }
    // 10 is not given here.
    assert_eq!(entries::budget(&soc_bytes(&many(13)), 1, 1, 1, 1, &mut [0; BUDGET_BYTES]), Ok(1_228));
    assert_eq!(plan(&many(13), 1, 1, 1), Err(Refusal::new(10)));
}
