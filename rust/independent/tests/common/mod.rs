//! Texts that several tests read.
#![allow(dead_code)]

pub mod small;

use independent::soc::Soc;
use independent::soc_text;

pub const CORE_A: &str = "Inputs 8 Outputs 11 Bidirs 0 ScanChains 9 : 12 12 8 8 8 6 6 6 6";
/// A module 0 that holds nothing.
pub const MODULE_0: &str = "Module 0 Level 0 Inputs 0 Outputs 0 Bidirs 0 ScanChains 0 :\nModule 0 TotalTests 0\n";
pub const D695: &str = include_str!("../../../../examples/d695.soc");
pub const T1_LISTING: &str = "soc t1 wires 4 limit 2 time 65\nbus 1 width 1 busy 65\nbus 2 width 3 busy 9\n\
                              module 1 bus 1 wires 1 cycles 65 start 0\nmodule 2 bus 2 wires 3 cycles 9 start 0\n";

/// Document 01's text t1.
pub fn t1() -> String {
    include_str!("../../../../examples/t1.soc").to_string()
}

/// The record of a text that is good.
pub fn soc(text: &str) -> Soc {
    let soc = soc_text::read(text.as_bytes()).unwrap_or_else(|refusal| panic!("{refusal:?}\n{text}"));
    assert_eq!(soc.check(), Ok(()));
    soc
}

/// A text with every kind of line, XY 1 and Power 1.
pub fn full() -> String {
    "SocName x847
TotalModules 2
Options Power 1 XY 1
Module 0 Level 0 Inputs 312 Outputs 312 Bidirs 0 ScanChains 2 : 54 43
Module 0 X -1 Y -1
Module 0 TotalTests 2
Module 0 Test 1 ScanUse 1 TamUse 0 Patterns 43 Power 128
Module 0 Test 2 ScanUse 0 TamUse 0 Patterns 32 Power -1
Module 1 Level 1 Inputs 10 Outputs 11 Bidirs 12 ScanChains 4 : 20 21 22 23
Module 1 X 678 Y 123
Module 1 TotalTests 1
Module 1 Test 1 ScanUse 1 TamUse 1 Patterns 567 Power 576
"
    .to_string()
}
