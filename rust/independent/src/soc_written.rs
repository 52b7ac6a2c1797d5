//! The written form of a SOC record.

use std::fmt::{self, Write};

use crate::soc::{Module, Soc};

/// The written form of a good record: single spaces, LF after every line, and every figure of an option that is 1.
pub fn written(soc: &Soc) -> String {
    let mut text = String::new();
    write_soc(soc, &mut text).expect("a String takes all that is written to it");
    text
}

fn write_soc(soc: &Soc, text: &mut String) -> fmt::Result {
    writeln!(text, "SocName {}", String::from_utf8_lossy(soc.name()))?;
    writeln!(text, "TotalModules {}", soc.module_count)?;
    writeln!(text, "Options Power {} XY {}", u8::from(soc.power), u8::from(soc.xy))?;
    for (number, module) in soc.modules().iter().enumerate() {
        write_module(soc, number, module, text)?;
    }
    Ok(())
}

fn write_module(soc: &Soc, number: usize, module: &Module, text: &mut String) -> fmt::Result {
    let Module { level, inputs, outputs, bidirs, chain_count, x, y, test_count, .. } = module;
    write!(text, "Module {number} Level {level} Inputs {inputs} Outputs {outputs} Bidirs {bidirs} ScanChains {chain_count} :")?;
    for length in module.chains() {
        write!(text, " {}", length.0)?;
    }
    writeln!(text)?;
    if soc.xy {
        writeln!(text, "Module {number} X {x} Y {y}")?;
    }
    writeln!(text, "Module {number} TotalTests {test_count}")?;
    for (index, test) in module.tests().iter().enumerate() {
        let (scan_use, tam_use) = (u8::from(test.scan_use), u8::from(test.tam_use));
        write!(text, "Module {number} Test {} ScanUse {scan_use} TamUse {tam_use} Patterns {}", index + 1, test.patterns)?;
        if soc.power {
            write!(text, " Power {}", test.power)?;
        }
        writeln!(text)?;
    }
    Ok(())
}
