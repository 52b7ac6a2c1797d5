//! SOC records and the entries on bytes: what is good, what is not, and which bytes are written.

mod common;

use common::{full, soc, t1, CORE_A, MODULE_0};
use independent::entries;
use independent::forms::{soc_bytes, soc_from, LAYOUT_BYTES, PLAN_BYTES, SOC_BYTES};
use independent::refusal::Refusal;
use independent::soc::Soc;
use independent::units::FlipFlops;

fn refusal<T: std::fmt::Debug>(answer: Result<T, Refusal>) -> u8 {
    let refusal = answer.unwrap_err();
    assert_eq!(refusal.line, 0);
    refusal.number
}

#[test]
fn forms_go_there_and_back() {
    for soc in [soc(&full()), soc(&t1())] {
        let bytes = soc_bytes(&soc);
        assert_eq!((bytes.len(), soc_from(&bytes)), (SOC_BYTES, Some(soc)));
    }
}

#[test]
fn places_of_the_soc_record() {
    let bytes = soc_bytes(&soc(&full()));
    let number = |offset: usize| i32::from_le_bytes(bytes[offset..offset + 4].try_into().unwrap());
    assert_eq!((number(0), &bytes[4..9]), (4, &b"x847\0"[..]));
    assert_eq!([36, 40, 44].map(number), [1, 1, 2]);
    let module = 48 + 416;
    assert_eq!(
        [0, 4, 8, 12, 16, 20, 32, 36, 276, 280, 284].map(|place| number(module + place)),
        [1, 10, 11, 12, 4, 20, 23, 0, 678, 123, 1]
    );
    assert_eq!([288, 292, 296, 300, 304].map(|place| number(module + place)), [1, 1, 567, 576, 0]);
    assert_eq!((number(48 + 276), number(48 + 416 * 2 + 276)), (-1, 0));
}

#[test]
fn a_wrong_place_in_a_soc_record_is_14() {
    let faults: &[fn(&mut Soc)] = &[
        |soc| soc.name_length = 0,
        |soc| soc.name_length = 33,
        |soc| soc.name_length = 3,
        |soc| soc.name_length = 5,
        |soc| soc.name[0] = b'.',
        |soc| soc.name[31] = b'a',
        |soc| soc.power = false,
        |soc| soc.xy = false,
        |soc| soc.module_count = 0,
        |soc| soc.module_count = 1,
        |soc| soc.module_count = 3,
        |soc| soc.module_count = 41,
        |soc| soc.modules[0].level = 1,
        |soc| soc.modules[1].level = 0,
        |soc| soc.modules[1].level = 2,
        |soc| soc.modules[1].inputs = 8192,
        |soc| soc.modules[1].outputs = 8192,
        |soc| soc.modules[1].bidirs = u32::MAX,
        |soc| soc.modules[1].chain_count = 65,
        |soc| soc.modules[1].chain_count = 3,
        |soc| soc.modules[1].chain_count = 5,
        |soc| soc.modules[1].lengths[0] = FlipFlops(0),
        |soc| soc.modules[1].lengths[0] = FlipFlops(4097),
        |soc| soc.modules[1].lengths[63] = FlipFlops(1),
        |soc| soc.modules[1].x = -1,
        |soc| soc.modules[1].y = -2,
        |soc| soc.modules[1].y = 1_000_001,
        |soc| soc.modules[1].test_count = 9,
        |soc| soc.modules[1].test_count = 0,
        |soc| soc.modules[1].test_count = 2,
        |soc| soc.modules[0].tests[0].tam_use = true,
        |soc| soc.modules[0].tests[1].tam_use = true,
        |soc| soc.modules[1].tests[0].patterns = 0,
        |soc| soc.modules[1].tests[0].patterns = 16_777_216,
        |soc| soc.modules[1].tests[0].power = 16_777_216,
        |soc| soc.modules[1].tests[0].power = -2,
        |soc| soc.modules[1].tests[7].power = -1,
        |soc| soc.modules[39].x = -1,
        |soc| soc.modules[39].tests[7].tam_use = true,
    ];
    for (index, fault) in faults.iter().enumerate() {
        let mut soc = soc(&full());
        fault(&mut soc);
        assert_eq!(soc.check(), Err(Refusal::new(14)), "fault {index}");
    }
}

#[test]
fn lengths_and_flags_of_a_soc_record() {
    let good = soc_bytes(&soc(&full()));
    let longer = [&good[..], &[0]].concat();
    let mut flag = good.clone();
    flag[36] = 2;
    for bad in [&good[..SOC_BYTES - 1], &longer, &flag, &[]] {
        assert_eq!(refusal(entries::write_soc(bad, &mut [0; 9])), 14);
        assert_eq!(refusal(entries::layout(bad, 0, 0, 0, 0, &mut [])), 14);
        assert_eq!(refusal(entries::module_time(bad, 0, 0, 0)), 14);
        assert_eq!(refusal(entries::plan(bad, 0, 0, 0, &mut [])), 14);
    }
}

#[test]
fn layouts_and_times_refuse_14_then_7_then_16_then_13_then_11() {
    let good = soc_bytes(&soc(&full()));
    let asked = [
        (9, 9, 0, 0, 7),
        (9, 9, 65, 9, 7),
        (9, 9, 64, 0, 16),
        (9, 9, 1, 5, 16),
        (0, 1, 1, u32::MAX, 16),
        (2, 1, 1, 1, 13),
        (0, 0, 64, 4, 13),
        (0, 3, 64, 1, 13),
        (0, u32::MAX, 64, 4, 13),
    ];
    for (module, test, width, capture, number) in asked {
        assert_eq!(refusal(entries::layout(&good, module, test, width, capture, &mut [])), number);
    }
    assert_eq!(refusal(entries::layout(&good, 0, 1, 64, 4, &mut [7; LAYOUT_BYTES - 1])), 11);
    for (module, width, capture, number) in [(2, 65, 0, 7), (2, 64, 0, 16), (2, 1, 5, 16), (0, 1, 256, 16), (2, 64, 4, 13)] {
        assert_eq!(refusal(entries::module_time(&good, module, width, capture)), number);
        assert_eq!(refusal(entries::module_wires(&good, module, width, capture)), number);
    }
}

/// Core A as module 1 with 10 patterns, at width 4 with two capture cycles: scan-in 20, scan-out 21, (2 + 21) × 10 + 20 cycles.
#[test]
fn places_of_the_layout() {
    let text = format!(
        "SocName a\nTotalModules 2\nOptions Power 0 XY 0\n{MODULE_0}Module 1 Level 1 {CORE_A}\nModule 1 TotalTests 1\n\
         Module 1 Test 1 ScanUse 1 TamUse 1 Patterns 10\n"
    );
    let mut lent = [7; LAYOUT_BYTES + 1];
    assert_eq!(entries::layout(&soc_bytes(&soc(&text)), 1, 1, 4, 2, &mut lent), Ok(1_304));
    let row = |offset: usize| [0, 1, 2, 3, 4].map(|place| u32::from_le_bytes(lent[offset + 4 * place..][..4].try_into().unwrap()));
    // 12 and 6, 12 and 6, 8 and 8, 8 and 6 and 6.
    assert_eq!((row(0), row(1_024)), ([18, 18, 16, 20, 0], [1, 2, 3, 4, 3]));
    assert_eq!((row(256), row(512), row(768)), ([2, 2, 4, 0, 0], [3, 3, 5, 0, 0], [0; 5]));
    let number = |offset: usize| u64::from_le_bytes(lent[offset..offset + 8].try_into().unwrap());
    assert_eq!([1_280, 1_288, 1_296].map(number), [20, 21, (2 + 21) * 10 + 20]);
    assert_eq!(lent[LAYOUT_BYTES], 7);
}

#[test]
fn a_module_without_a_planned_test_takes_no_time_on_one_wire() {
    let good = soc_bytes(&soc(&full()));
    assert_eq!((entries::module_time(&good, 0, 64, 4), entries::module_wires(&good, 0, 64, 4)), (Ok(0), Ok(1)));
}

#[test]
fn planner_refuses_7_then_8_then_16_then_9_then_10_then_11() {
    let none = soc_bytes(&soc(&full().replace("TamUse 1", "TamUse 0")));
    let of = |record: &[u8], wires, limit, capture| refusal(entries::plan(record, wires, limit, capture, &mut []));
    assert_eq!([of(&none, 0, 0, 0), of(&none, 65, 4, 5)], [7, 7]);
    assert_eq!([of(&none, 64, 0, 0), of(&none, 1, 4, 5)], [8, 8]);
    assert_eq!([of(&none, 64, 3, 0), of(&none, 1, 1, 5), of(&none, 1, 1, u32::MAX)], [16, 16, 16]);
    assert_eq!([of(&none, 64, 3, 1), of(&none, 1, 1, 4)], [9, 9]);
    let many = |count: usize| {
        let module = |m: usize| {
            format!(
                "Module {m} Level 1 Inputs 1 Outputs 0 Bidirs 0 ScanChains 0 :\nModule {m} TotalTests 1\n\
                 Module {m} Test 1 ScanUse 0 TamUse 1 Patterns 1\n"
            )
        };
        let modules: String = (1..=count).map(module).collect();
        soc_bytes(&soc(&format!("SocName n\nTotalModules {}\nOptions Power 0 XY 0\n{MODULE_0}{modules}", count + 1)))
    };
    assert_eq!([of(&many(13), 64, 3, 5), of(&many(13), 64, 3, 4)], [16, 10]);
    assert_eq!(refusal(entries::plan(&many(12), 64, 3, 4, &mut [0; PLAN_BYTES - 1])), 11);
    assert_eq!(entries::plan(&many(12), 64, 3, 4, &mut [0; PLAN_BYTES]), Ok(PLAN_BYTES as u64));
}

#[test]
fn lent_bytes_past_the_result_stay() {
    let record = soc_bytes(&soc(&t1()));
    let mut text = vec![0xAA; 1000];
    let length = entries::write_soc(&record, &mut text).unwrap() as usize;
    assert_eq!(&text[..length], t1().as_bytes());
    assert!(text[length..].iter().all(|&byte| byte == 0xAA));
    let mut short = vec![0xAA; length - 1];
    assert_eq!(refusal(entries::write_soc(&record, &mut short)), 11);
    assert!(short.iter().all(|&byte| byte == 0xAA));
}
