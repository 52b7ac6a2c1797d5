//! Capture cycles: what a test, a module and a plan take with each number of them.

mod common;

use common::{soc, CORE_A, D695, MODULE_0};
use independent::planner::plan;
use independent::soc::Soc;
use independent::time::{layout_and_time, module_time};
use independent::units::Cycles;

/// Core A with 10 patterns, and one more test of 7 that is not planned and does not scan.
fn core_a() -> Soc {
    soc(&format!(
        "SocName a\nTotalModules 2\nOptions Power 0 XY 0\n{MODULE_0}Module 1 Level 1 {CORE_A}\nModule 1 TotalTests 2\n\
         Module 1 Test 1 ScanUse 1 TamUse 1 Patterns 10\nModule 1 Test 2 ScanUse 0 TamUse 0 Patterns 7\n"
    ))
}

#[test]
fn core_a_with_capture_cycles() {
    let core = core_a();
    for (width, figure) in (1..=5).zip([920, 470, 317, 240, 208]) {
        for capture in 1..=4 {
            let more = u64::from(capture) - 1;
            assert_eq!(layout_and_time(&core, 1, 1, width, capture).unwrap().cycles, Cycles(figure + 10 * more));
            assert_eq!(module_time(&core, 1, width, capture).unwrap().cycles, Cycles(figure + 10 * more));
        }
    }
    // 8 input cells and 11 output cells on one chain.
    assert_eq!([1, 4].map(|capture| layout_and_time(&core, 1, 2, 1, capture).unwrap().cycles.0), [12 * 7 + 8, 15 * 7 + 8]);
}

#[test]
fn capture_cycles_move_no_cell_and_no_wire() {
    let core = core_a();
    for capture in 2..=4 {
        let [one, more] = [1, capture].map(|capture| layout_and_time(&core, 1, 1, 4, capture).unwrap());
        assert_eq!((one.layout, one.scan_in, one.scan_out), (more.layout, more.scan_in, more.scan_out));
    }
    let d695 = soc(D695);
    for module in 0..11 {
        let [one, four] = [1, 4].map(|capture| module_time(&d695, module, 64, capture).unwrap());
        let patterns: u64 = d695.modules[module as usize].tests().iter().map(|test| u64::from(test.patterns)).sum();
        assert_eq!((four.cycles, four.wires), (Cycles(one.cycles.0 + 3 * patterns), one.wires));
    }
}

/// A further cycle for each pattern never takes less than none, nor more than one for all of them on one bus.
#[test]
fn d695_with_capture_cycles() {
    let d695 = soc(D695);
    let patterns: u64 = d695.modules().iter().flat_map(|module| module.tests()).map(|test| u64::from(test.patterns)).sum();
    for wires in [16, 32, 64] {
        let times = [1, 2, 3, 4].map(|capture| plan(&d695, wires, 3, capture).unwrap().time.0);
        assert!(times.windows(2).all(|pair| (pair[0]..=pair[0] + patterns).contains(&pair[1])), "{times:?}");
    }
}
