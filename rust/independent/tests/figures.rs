//! The figures of document 01, and open points 17 and 18.

mod common;

use common::{soc, t1, CORE_A, D695, MODULE_0};
use independent::layout::layout;
use independent::limits;
use independent::planner::{plan, width_lists};
use independent::soc::Soc;
use independent::time::{figure, layout_and_time, module_time};
use independent::units::{Capture, Cycles, FlipFlops, Wires};

/// A text whose module 1 is the one of interest.
fn one_module(level_line: &str, patterns: u32) -> Soc {
    soc(&format!(
        "SocName one\nTotalModules 2\nOptions Power 0 XY 0\n{MODULE_0}Module 1 Level 1 {level_line}\nModule 1 TotalTests 1\n\
         Module 1 Test 1 ScanUse 1 TamUse 1 Patterns {patterns}\n"
    ))
}

fn figures(soc: &Soc, widths: std::ops::RangeInclusive<u32>) -> Vec<u64> {
    widths.map(|width| figure(&soc.modules[1], Wires(width), Capture(1)).0).collect()
}

fn time_and_wires(soc: &Soc, module: u32, width: u32) -> (u64, u32) {
    let time = module_time(soc, module, width, 1).unwrap();
    (time.cycles.0, time.wires.0)
}

#[test]
fn core_a() {
    let core = one_module(CORE_A, 10);
    assert_eq!(figures(&core, 1..=5), [920, 470, 317, 240, 208]);
    let layout = layout(&core.modules[1], &core.modules[1].tests[0], Wires(4));
    assert_eq!((layout.scan_in(), layout.scan_out()), (FlipFlops(20), FlipFlops(21)));
    // Table 3 of document 000, up to chain numbers: 18, 18, 20 and 16 flip-flops with 2, 2, 0 and 4 input, 3, 3, 0 and 5 output cells.
    let mut chains: Vec<(u32, u32, u32)> =
        (0..4).map(|chain| (layout.flip_flops[chain].0, layout.input_cells[chain], layout.output_cells[chain])).collect();
    chains.sort_unstable();
    assert_eq!(chains, [(16, 4, 5), (18, 2, 3), (18, 2, 3), (20, 0, 0)]);
}

#[test]
fn one_chain_needs_one_wire() {
    let core = one_module("Inputs 0 Outputs 0 Bidirs 0 ScanChains 1 : 10", 5);
    assert_eq!([time_and_wires(&core, 1, 1), time_and_wires(&core, 1, 2)], [(65, 1), (65, 1)]);
}

#[test]
fn cells_alone() {
    let core = one_module("Inputs 3 Outputs 2 Bidirs 0 ScanChains 0 :", 4);
    assert_eq!(figures(&core, 1..=4), [18, 13, 9, 9]);
    assert_eq!(time_and_wires(&core, 1, 4), (9, 3));
}

#[test]
fn nothing_to_scan() {
    let core = one_module("Inputs 0 Outputs 0 Bidirs 0 ScanChains 0 :", 7);
    assert_eq!(time_and_wires(&core, 1, 64), (7, 1));
}

/// Input, output and bidirectional cells of each of the first chains.
fn cells(core: &Soc, width: u32) -> Vec<(u32, u32, u32)> {
    let layout = layout(&core.modules[1], &core.modules[1].tests[0], Wires(width));
    (0..width as usize).map(|chain| (layout.input_cells[chain], layout.output_cells[chain], layout.bidir_cells[chain])).collect()
}

#[test]
fn a_bidirectional_terminal_is_one_cell_for_both_scans() {
    let core = one_module("Inputs 2 Outputs 1 Bidirs 1 ScanChains 0 :", 4);
    assert_eq!(figures(&core, 1..=4), [18, 13, 9, 9]);
    assert_eq!(cells(&core, 2), [(1, 0, 1), (1, 1, 0)]);
    assert_eq!(cells(&core, 4), [(0, 0, 1), (1, 1, 0), (1, 0, 0), (0, 0, 0)]);
}

/// Core 6 of p93791, as document 000 gives it in section 4, with Table 4: widths, and the longest wrapper chain there.
#[test]
fn core_6() {
    let lengths = [(500, 7), (520, 30), (521, 9)].iter().flat_map(|&(length, count)| vec![length.to_string(); count]);
    let lengths: Vec<String> = lengths.collect();
    let core = one_module(&format!("Inputs 417 Outputs 324 Bidirs 72 ScanChains {} : {}", lengths.len(), lengths.join(" ")), 218);
    let table_4 =
        [(1, 24278), (2, 12139), (3, 8263), (4, 6202), (8, 3101), (16, 1560), (24, 1040), (39, 1020), (46, 528), (47, 521), (64, 521)];
    for (width, longest) in table_4 {
        let layout = layout(&core.modules[1], &core.modules[1].tests[0], Wires(width));
        assert_eq!(layout.scan_in().max(layout.scan_out()), FlipFlops(longest), "{width}");
        let sum = |cells: [u32; limits::CHAINS]| cells.iter().sum::<u32>();
        assert_eq!([layout.input_cells, layout.output_cells, layout.bidir_cells].map(sum), [417, 324, 72]);
    }
    assert_eq!(figures(&core, 46..=47), [115_848, 114_317]);
}

#[test]
fn figures_rise_with_the_width_for_some_cores() {
    let lengths = [(5, 8), (4, 5), (3, 5), (2, 9)].iter().flat_map(|&(length, count)| vec![length.to_string(); count]);
    let lengths: Vec<String> = lengths.collect();
    let core = one_module(&format!("Inputs 0 Outputs 0 Bidirs 0 ScanChains {} : {}", lengths.len(), lengths.join(" ")), 1);
    assert_eq!(figures(&core, 11..=14), [21, 17, 19, 15]);
    assert_eq!(time_and_wires(&core, 1, 13), (17, 12));
}

#[test]
fn the_most_that_a_test_and_a_module_take() {
    let chains = vec!["4096"; limits::CHAINS].join(" ");
    let test = |number| format!("Module 1 Test {number} ScanUse 1 TamUse 1 Patterns 16777215\n");
    let tests: String = (1..=8).map(test).collect();
    let largest = soc(&format!(
        "SocName largest\nTotalModules 2\nOptions Power 0 XY 0\n{MODULE_0}\
         Module 1 Level 1 Inputs 8191 Outputs 8191 Bidirs 8191 ScanChains 64 : {chains}\nModule 1 TotalTests 8\n{tests}"
    ));
    assert_eq!(layout_and_time(&largest, 1, 1, 1, 1).unwrap().cycles, Cycles(4_672_907_640_831));
    assert_eq!(time_and_wires(&largest, 1, 1), (37_383_261_126_648, 1));
    assert_eq!(layout_and_time(&largest, 1, 1, 1, 4).unwrap().cycles, Cycles(4_672_957_972_476));
    assert_eq!(module_time(&largest, 1, 1, 4).unwrap().cycles, Cycles(37_383_663_779_808));
    assert_eq!((limits::TEST_CYCLES, limits::MODULE_CYCLES), (4_672_957_972_476, 37_383_663_779_808));
}

#[test]
fn t1_plans() {
    let t1 = soc(&t1());
    assert_eq!(plan(&t1, 4, 1, 1).unwrap().time, Cycles(74));
    assert_eq!(plan(&t1, 1, 3, 1).unwrap().time, Cycles(83));
    let best = plan(&t1, 4, 3, 1).unwrap();
    assert_eq!((best.time, best.bus_count), (Cycles(65), 2));
}

#[test]
fn two_copies_go_to_two_buses() {
    let module = |m| {
        format!(
            "Module {m} Level 1 Inputs 0 Outputs 0 Bidirs 0 ScanChains 1 : 10\nModule {m} TotalTests 1\n\
             Module {m} Test 1 ScanUse 1 TamUse 1 Patterns 5\n"
        )
    };
    let two = soc(&format!(
        "SocName two\nTotalModules 3\nOptions Power 0 XY 0\n\
         {MODULE_0}{}{}",
        module(1),
        module(2)
    ));
    let best = plan(&two, 2, 2, 1).unwrap();
    assert_eq!((best.time, best.modules[0].bus, best.modules[1].bus), (Cycles(65), 1, 2));
}

#[test]
fn width_lists_of_64_wires() {
    assert_eq!([1, 2, 3].map(|buses| width_lists(buses, Wires(64)).len()), [1, 32, 341]);
    assert!(width_lists(3, Wires(64)).windows(2).all(|pair| pair[0] < pair[1]));
}

/// Table 9 of document 000: W, and the times printed for two and for three buses.
const TABLE_9: [(u32, u64, u64); 13] = [
    (16, 45055, 42568),
    (20, 34444, 34444),
    (24, 29501, 28292),
    (28, 26964, 24812),
    (32, 25442, 21566),
    (36, 23312, 19564),
    (40, 21359, 17901),
    (44, 20883, 16975),
    (48, 19938, 16975),
    (52, 19087, 14852),
    (56, 18434, 13207),
    (60, 18205, 12941),
    (64, 18205, 12941),
];

/// Open point 18: 15 times are equal, nine of ours are lower, and two printed ones are below what their plans come to.
#[test]
fn d695_against_table_9() {
    let d695 = soc(D695);
    let (mut equal, mut lower, mut higher) = (0, 0, Vec::new());
    for (wires, two, three) in TABLE_9 {
        for (limit, printed) in [(2, two), (3, three)] {
            let time = plan(&d695, wires, limit, 1).unwrap().time.0;
            match time.cmp(&printed) {
                std::cmp::Ordering::Equal => equal += 1,
                std::cmp::Ordering::Less => lower += 1,
                std::cmp::Ordering::Greater => higher.push((wires, limit, time - printed)),
            }
        }
    }
    assert_eq!((equal, lower, higher), (15, 9, vec![(40, 2, 3), (56, 2, 5)]));
}
