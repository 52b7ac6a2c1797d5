//! Plan records and plan files: what is good, what is not, and which bytes are written.

mod common;

use common::{soc, t1};
use independent::entries;
use independent::forms::{plan_bytes, plan_from, PLAN_BYTES};
use independent::limits;
use independent::plan::{Bus, Plan, Planned};
use independent::plan_file;
use independent::planner::plan;
use independent::refusal::Refusal;
use independent::units::{Cycles, Wires};

fn refusal<T: std::fmt::Debug>(answer: Result<T, Refusal>) -> u8 {
    let refusal = answer.unwrap_err();
    assert_eq!(refusal.line, 0);
    refusal.number
}

fn best() -> Plan {
    plan(&soc(&t1()), 4, 2, 1).unwrap()
}

/// Both modules on one bus.
fn on_one_bus() -> Plan {
    plan(&soc(&t1()), 4, 1, 1).unwrap()
}

#[test]
fn the_record_goes_there_and_back() {
    let bytes = plan_bytes(&best());
    assert_eq!((bytes.len(), plan_from(&bytes)), (PLAN_BYTES, Some(best())));
}

#[test]
fn a_wrong_place_in_a_plan_record_is_12() {
    assert_eq!(best().check(), Ok(()));
    let faults: &[fn(&mut Plan)] = &[
        |plan| plan.wires = Wires(0),
        |plan| plan.wires = Wires(5),
        |plan| plan.limit = 1,
        |plan| plan.limit = 0,
        |plan| plan.limit = 9,
        |plan| plan.bus_count = 0,
        |plan| plan.bus_count = 1,
        |plan| plan.bus_count = 3,
        |plan| plan.bus_count = 9,
        |plan| plan.module_count = 0,
        |plan| plan.module_count = 3,
        |plan| plan.module_count = 39,
        |plan| plan.module_count = 40,
        |plan| plan.time = Cycles(66),
        |plan| plan.buses.swap(0, 1),
        |plan| plan.buses[0].width = Wires(0),
        |plan| plan.buses[1].busy = Cycles(8),
        |plan| plan.buses[2].busy = Cycles(1),
        |plan| plan.buses[7].width = Wires(1),
        |plan| plan.modules[0].number = 0,
        |plan| plan.modules[0].number = 2,
        |plan| plan.modules[1].number = 40,
        |plan| plan.modules[1].bus = 0,
        |plan| plan.modules[1].bus = 3,
        |plan| plan.modules[1].wires = Wires(0),
        |plan| plan.modules[1].wires = Wires(4),
        |plan| plan.modules[1].cycles = Cycles(0),
        |plan| plan.modules[1].cycles = Cycles(10),
        |plan| plan.modules[1].start = Cycles(65),
        |plan| plan.modules[11] = Planned { number: 39, ..Planned::default() },
        |plan| plan.modules[38] = Planned { start: Cycles(1), ..Planned::default() },
    ];
    for (index, fault) in faults.iter().enumerate() {
        let mut plan = best();
        fault(&mut plan);
        assert_eq!(plan.check(), Err(Refusal::new(12)), "fault {index}");
    }
    assert_eq!(refusal(entries::write_plan(&plan_bytes(&best())[..PLAN_BYTES - 1], &mut [0; 292])), 12);
}

/// Both modules of t1 with so many cycles, each on its bus.
fn with_cycles(cycles: u64) -> Plan {
    let mut plan = Plan { time: Cycles(cycles), ..best() };
    for (module, bus) in plan.modules.iter_mut().zip(&mut plan.buses[..2]) {
        (module.cycles, bus.busy) = (Cycles(cycles), Cycles(cycles));
    }
    plan
}

#[test]
fn cycles_are_judged_by_the_most_with_four_capture_cycles() {
    for good in [1, 37_383_261_126_648, 37_383_261_126_649, limits::MODULE_CYCLES] {
        let plan = with_cycles(good);
        assert_eq!(plan.check(), Ok(()), "{good}");
        assert_eq!(plan_file::read(&plan_file::write(&plan)), Ok(plan));
    }
    for bad in [0, limits::MODULE_CYCLES + 1, u64::MAX / 2] {
        let plan = with_cycles(bad);
        assert_eq!(plan.check(), Err(Refusal::new(12)), "{bad}");
        assert_eq!(refusal(plan_file::read(&plan_file::write(&plan))), 12);
    }
}

#[test]
fn plan_file_of_t1() {
    let module =
        |number, bus, wires, cycles: u64, start: u64| [&[number, bus, wires, 0][..], &cycles.to_le_bytes(), &start.to_le_bytes()].concat();
    let bus = |width, busy: u64| [&[width, 0, 0, 0][..], &busy.to_le_bytes()].concat();
    let trailer = [&[0, 0, 40, 0, 4, 2, 2, 2][..], &65u64.to_le_bytes()].concat();
    let file = [module(1, 1, 1, 65, 0), module(2, 2, 3, 9, 0), bus(1, 65), bus(3, 9), trailer].concat();
    assert_eq!(plan_file::write(&best()), file);
    assert_eq!(plan_file::read(&file), Ok(best()));

    let trailer = [&[0, 0, 40, 0, 4, 1, 1, 2][..], &74u64.to_le_bytes()].concat();
    let file = [module(1, 1, 1, 65, 0), module(2, 1, 3, 9, 65), bus(4, 74), trailer].concat();
    assert_eq!(plan_file::write(&on_one_bus()), file);
    assert_eq!(plan_file::read(&file), Ok(on_one_bus()));
}

/// A plan of 39 modules, module m with m cycles on bus (m - 1) % 8 + 1, of eight buses of a wire each.
fn largest() -> Plan {
    let mut plan = Plan { wires: Wires(8), limit: 8, bus_count: 8, module_count: 39, ..Plan::default() };
    for (number, module) in (1..).zip(&mut plan.modules) {
        *module = Planned { number, bus: (number - 1) % 8 + 1, wires: Wires(1), cycles: Cycles(number.into()), start: Cycles(0) };
    }
    for index in 0..39 {
        plan.modules[index].start = plan.start_of(&plan.modules[index]);
        let bus = &mut plan.buses[index % 8];
        *bus = Bus { width: Wires(1), busy: bus.busy + Cycles(index as u64 + 1) };
    }
    // Modules 7, 15, 23, 31 and 39.
    plan.time = Cycles(115);
    plan
}

#[test]
fn thirty_nine_modules_on_eight_buses() {
    let plan = largest();
    assert_eq!(plan.check(), Ok(()));
    let bytes = plan_bytes(&plan);
    assert_eq!((bytes.len(), plan_from(&bytes)), (PLAN_BYTES, Some(plan.clone())));
    let number = |offset: usize| u32::from_le_bytes(bytes[offset..offset + 4].try_into().unwrap());
    // Bus 8 has modules 8, 16, 24 and 32; module 39 is the last on bus 7, behind 7, 15, 23 and 31.
    assert_eq!([24 + 12 * 7, 24 + 12 * 7 + 4].map(number), [1, 80]);
    assert_eq!([0, 4, 8, 12, 20].map(|place| number(120 + 28 * 38 + place)), [39, 7, 1, 39, 76]);
    let file = plan_file::write(&plan);
    assert_eq!((file.len(), plan_file::read(&file)), (limits::PLAN_FILE_BYTES, Ok(plan.clone())));
    assert_eq!(&file[file.len() - 16..], [&[0, 0, 12, 3, 8, 8, 8, 39][..], &115u64.to_le_bytes()].concat());
    for limit in 1..=9 {
        let good = Plan { limit, ..best() }.check().is_ok();
        assert_eq!(good, (2..=8).contains(&limit), "{limit}");
    }
}

/// Module 0 is never planned, so a plan does not name it.
#[test]
fn a_plan_that_names_module_0_is_12() {
    for mut plan in [best(), on_one_bus()] {
        plan.modules[0].number = 0;
        assert_eq!(plan.check(), Err(Refusal::new(12)));
        assert_eq!(refusal(plan_file::read(&plan_file::write(&plan))), 12);
        assert_eq!(refusal(entries::write_plan(&plan_bytes(&plan), &mut [0; 292])), 12);
        assert_eq!(refusal(entries::show(&plan_bytes(&plan), &mut [0; 2_048])), 12);
        (plan.modules[0].number, plan.modules[1].number) = (1, 39);
        assert_eq!(plan_file::read(&plan_file::write(&plan)), Ok(plan));
    }
}

#[test]
fn starts_are_those_of_the_lower_numbers_on_the_bus() {
    assert_eq!(best().modules().iter().map(|module| module.start.0).collect::<Vec<_>>(), [0, 0]);
    assert_eq!(on_one_bus().modules().iter().map(|module| module.start.0).collect::<Vec<_>>(), [0, 65]);
    for start in [0, 9, 64, 66, 74] {
        let mut plan = on_one_bus();
        plan.modules[1].start = Cycles(start);
        assert_eq!(plan.check(), Err(Refusal::new(12)), "{start}");
        assert_eq!(refusal(plan_file::read(&plan_file::write(&plan))), 12, "{start}");
    }
}

#[test]
fn a_file_of_12_byte_records_is_12() {
    let module = |number, bus, wires, cycles: u64| [&[number, bus, wires, 0][..], &cycles.to_le_bytes()].concat();
    let bus = |width, busy: u64| [&[width, 0, 0, 0][..], &busy.to_le_bytes()].concat();
    let trailer = [&[0, 0, 24, 0, 4, 2, 2, 2][..], &65u64.to_le_bytes()].concat();
    let file = [module(1, 1, 1, 65), module(2, 2, 3, 9), bus(1, 65), bus(3, 9), trailer].concat();
    assert_eq!(refusal(plan_file::read(&file)), 12);
}

#[test]
fn a_good_record_is_shown_and_no_other() {
    let mut lent = [0; 2_048];
    let length = entries::show(&plan_bytes(&best()), &mut lent).unwrap() as usize;
    let shown = "wires 4 limit 2 time 65\nbus 1 width 1 busy 65\nbus 2 width 3 busy 9\n\
                 module 1 bus 1 wires 1 cycles 65 start 0\nmodule 2 bus 2 wires 3 cycles 9 start 0\n";
    assert_eq!(std::str::from_utf8(&lent[..length]), Ok(shown));
    assert_eq!(refusal(entries::show(&plan_bytes(&best()), &mut lent[..length - 1])), 11);
    assert_eq!(refusal(entries::show(&plan_bytes(&best())[..PLAN_BYTES - 1], &mut lent)), 12);
    assert_eq!(refusal(entries::show(&plan_bytes(&Plan { limit: 1, ..best() }), &mut lent)), 12);
}

#[test]
fn no_other_file_is_good() {
    let file = plan_file::write(&best());
    for length in 0..file.len() {
        assert_eq!(refusal(plan_file::read(&file[..length])), 12);
        assert_eq!(refusal(plan_file::read(&file[file.len() - length..])), 12);
    }
    assert_eq!(refusal(plan_file::read(&[&file[..], &[0]].concat())), 12);
    for place in 0..file.len() {
        for bit in 0..8 {
            let mut damaged = file.clone();
            damaged[place] ^= 1 << bit;
            // Some flips give another good plan, which then is a file of its own.
            if let Ok(other) = plan_file::read(&damaged) {
                assert_eq!(plan_file::write(&other), damaged);
            }
        }
    }
}
