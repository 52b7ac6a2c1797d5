//! The SOC texts that are measured.

/// The public d695, in the form of document 003.
pub const D695: &str = include_str!("../../../examples/d695.soc");

/// The example's overlay, which changes two of its cores.
pub const D695_OVERLAY: &str = include_str!("../../../examples/d695.overlay");

/// An overlay with every module of a made text.
pub fn overlay_of(text: &str) -> String {
    let lines: Vec<&str> = text.lines().collect();
    format!("{}\n{}\n", lines[0].replace("SocName", "Overlay"), lines[2..].join("\n"))
}

/// What a module of a made text is like.
pub struct Module {
    pub terminals: u32,
    pub chains: Vec<u32>,
    pub tests: u32,
    pub patterns: u32,
    pub planned: bool,
}

/// A text of modules: the SOC itself, which is not planned, and the others at level 1.
pub fn text(name: &str, modules: &[Module]) -> String {
    let mut text = format!("SocName {name}\nTotalModules {}\nOptions Power 1 XY 1\n", modules.len());
    for (m, module) in modules.iter().enumerate() {
        let (level, n) = (m.min(1), module.terminals);
        let lengths: String = module.chains.iter().map(|length| format!(" {length}")).collect();
        text += &format!("Module {m} Level {level} Inputs {n} Outputs {n} Bidirs {n} ScanChains {} :{lengths}\n", module.chains.len());
        text += &format!("Module {m} X 1000000 Y 1000000\nModule {m} TotalTests {}\n", module.tests);
        for test in 1..=module.tests {
            let tam_use = u8::from(module.planned);
            text += &format!("Module {m} Test {test} ScanUse {} TamUse {tam_use} Patterns {} Power 16777215\n", test % 2, module.patterns);
        }
    }
    text
}

/// Forty modules, everything at its limit, twelve of them planned.
pub fn largest() -> String {
    let module = |m: u32| Module {
        terminals: 8191,
        chains: (0..64).map(|j| 4096 - (j * 7 + m) % 64).collect(),
        tests: 8,
        patterns: 16_777_215,
        planned: (1..=12).contains(&m),
    };
    text("largest", &(0..40).map(module).collect::<Vec<_>>())
}

/// A SOC without pins, and modules below it.
fn below_top(modules: impl Iterator<Item = Module>) -> Vec<Module> {
    let top = Module { terminals: 0, chains: Vec::new(), tests: 0, patterns: 1, planned: false };
    std::iter::once(top).chain(modules).collect()
}

/// The largest text with its blanks doubled from the top, until it has some 60,000 bytes.
pub fn long() -> String {
    let mut left = 60_000 - largest().len();
    let double = |byte: char| {
        if byte == ' ' && left > 0 {
            left -= 1;
            "  ".to_string()
        } else {
            byte.to_string()
        }
    };
    largest().chars().map(double).collect()
}

/// Modules that differ, like those of d695: some of cells alone, some of many chains.
pub fn mixed(count: u32) -> String {
    let module = |m: u32| Module {
        terminals: 20 + 37 * m % 150,
        chains: (0..(m * 5) % 33).map(|j| 30 + (j * 3 + m) % 25).collect(),
        tests: 1,
        patterns: 20 + 31 * m % 200,
        planned: true,
    };
    text("mixed", &below_top((0..count).map(module)))
}

pub fn twelve_equal() -> String {
    let module = |_| Module { terminals: 60, chains: vec![45; 16], tests: 1, patterns: 100, planned: true };
    text("equal", &below_top((0..12).map(module)))
}

/// One chain each and no cells: no wire but the first helps.
pub fn twelve_that_never_fall() -> String {
    let module = |m: u32| Module { terminals: 0, chains: vec![100 + 17 * m % 90], tests: 1, patterns: 50 + 23 * m % 60, planned: true };
    text("flat", &below_top((0..12).map(module)))
}
