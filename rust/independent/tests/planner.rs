//! The first planner against every plan there is, on small cases.

mod common;

use common::small::{by_listing_all, choice, random_soc, Random};
use common::soc;
use independent::planner::plan;
use independent::soc::Soc;
use independent::time::times;
use independent::units::{Capture, Wires};

#[test]
fn same_as_listing_all_plans() {
    let mut random = Random(7);
    for case in 0..2_000 {
        let soc = random_soc(&mut random);
        let [wires, limit, capture] = [9, 3, 4].map(|most| 1 + random.below(most) as u32);
        let found = plan(&soc, wires, limit, capture).unwrap();
        assert_eq!(choice(&found), by_listing_all(&soc, wires, limit, capture), "case {case}");
        assert_eq!(found.check(), Ok(()));
    }
}

/// What the least time is at least: the longest time of a planned module on all the wires, their sum shared out over the buses, and the
/// sum of the smallest wires × cycles shared out over the wires.
fn bounds(soc: &Soc, wires: u32, limit: u32, capture: u32) -> [u64; 3] {
    let planned = soc.modules().iter().filter(|module| module.planned());
    let rows: Vec<Vec<u64>> =
        planned.map(|module| times(module, Wires(wires), Capture(capture)).iter().map(|time| time.cycles.0).collect()).collect();
    let on_all: Vec<u64> = rows.iter().map(|row| *row.last().unwrap()).collect();
    let areas = rows.iter().map(|row| (1..).zip(row).map(|(width, cycles)| width * cycles).min().unwrap());
    let [buses, wires] = [limit, wires].map(u64::from);
    [*on_all.iter().max().unwrap(), on_all.iter().sum::<u64>().div_ceil(buses), areas.sum::<u64>().div_ceil(wires)]
}

/// The least times for every number of wires up to `widest` and every limit.
fn one_more_cannot_hurt(soc: &Soc, widest: u32, capture: u32) {
    let time = |wires, limit| plan(soc, wires, limit, capture).unwrap().time.0;
    for wires in 1..=widest {
        for limit in 1..=3 {
            let least = time(wires, limit);
            assert!(wires == 1 || least <= time(wires - 1, limit), "wires {wires} limit {limit}");
            assert!(limit == 1 || least <= time(wires, limit - 1), "wires {wires} limit {limit}");
            assert!(bounds(soc, wires, limit, capture).iter().all(|&bound| bound <= least), "wires {wires} limit {limit}");
        }
    }
}

#[test]
fn one_more_wire_or_bus_cannot_hurt() {
    let mut random = Random(10);
    for case in 0..300 {
        one_more_cannot_hurt(&random_soc(&mut random), 12, 1 + case % 4);
    }
}

#[test]
fn one_more_wire_or_bus_cannot_hurt_d695() {
    let d695 = soc(common::D695);
    one_more_cannot_hurt(&d695, 64, 1);
    assert_eq!(bounds(&d695, 16, 3, 1), [12_192, 17_214, 41_232]);
    assert_eq!(bounds(&d695, 32, 3, 1), [9_869, 12_563, 20_616]);
    assert_eq!(bounds(&d695, 64, 3, 1), [9_869, 12_081, 10_308]);
}
