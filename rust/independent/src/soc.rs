//! The SOC record and its rules (refusal 14).

use crate::limits;
use crate::refusal::{demand, Refusal};
use crate::units::FlipFlops;

/// X, Y or Power that is not given.
pub const NOT_GIVEN: i32 = -1;

#[derive(Clone, Copy, Debug, Default, PartialEq, Eq)]
pub struct Test {
    pub scan_use: bool,
    pub tam_use: bool,
    pub patterns: u32,
    pub power: i32,
}

#[derive(Clone, Copy, Debug, PartialEq, Eq)]
pub struct Module {
    pub level: u32,
    pub inputs: u32,
    pub outputs: u32,
    pub bidirs: u32,
    pub chain_count: u32,
    pub lengths: [FlipFlops; limits::CHAINS],
    pub x: i32,
    pub y: i32,
    pub test_count: u32,
    pub tests: [Test; limits::TESTS],
}

/// Which of the optional figures a text may give.
#[derive(Clone, Copy, Debug, PartialEq, Eq)]
pub struct Options {
    pub power: bool,
    pub xy: bool,
}

/// Places past a count are spare, and 0 in a good record.
#[derive(Clone, Debug, PartialEq, Eq)]
pub struct Soc {
    pub name_length: u32,
    pub name: [u8; limits::NAME_BYTES],
    pub power: bool,
    pub xy: bool,
    pub module_count: u32,
    pub modules: [Module; limits::MODULES],
}

impl Module {
    /// All places 0, as a spare module has them.
    pub const SPARE: Module = Module {
        level: 0,
        inputs: 0,
        outputs: 0,
        bidirs: 0,
        chain_count: 0,
        lengths: [FlipFlops(0); limits::CHAINS],
        x: 0,
        y: 0,
        test_count: 0,
        tests: [Test { scan_use: false, tam_use: false, patterns: 0, power: 0 }; limits::TESTS],
    };

    /// The internal chains, in file order.
    pub fn chains(&self) -> &[FlipFlops] {
        &self.lengths[..self.chain_count as usize]
    }

    pub fn tests(&self) -> &[Test] {
        &self.tests[..self.test_count as usize]
    }

    pub fn planned(&self) -> bool {
        self.tests().iter().any(|test| test.tam_use)
    }
}

impl Soc {
    pub fn spare() -> Self {
        Soc {
            name_length: 0,
            name: [0; limits::NAME_BYTES],
            power: false,
            xy: false,
            module_count: 0,
            modules: [Module::SPARE; limits::MODULES],
        }
    }

    pub fn name(&self) -> &[u8] {
        &self.name[..self.name_length as usize]
    }

    pub fn options(&self) -> Options {
        Options { power: self.power, xy: self.xy }
    }

    pub fn modules(&self) -> &[Module] {
        &self.modules[..self.module_count as usize]
    }

    /// A module by its number, or refusal 13.
    pub fn module(&self, number: u32) -> Result<&Module, Refusal> {
        self.modules().get(number as usize).ok_or(Refusal::new(13))
    }

    /// Refuses with 14 a record that no text gives.
    pub fn check(&self) -> Result<(), Refusal> {
        demand(self.good_head(), 14)?;
        let mut previous = None;
        for (number, module) in (0..).zip(self.modules()) {
            demand(self.good_module(module, previous), 14)?;
            demand(module.tests().iter().all(|test| tam_use_allowed(number, test.tam_use)), 14)?;
            previous = Some(module.level);
        }
        let spare = &self.modules[self.module_count as usize..];
        demand(spare.iter().all(|module| *module == Module::SPARE), 14)
    }

    fn good_head(&self) -> bool {
        let length = self.name_length as usize;
        (1..=limits::NAME_BYTES).contains(&length)
            && self.name[..length].iter().all(|&byte| name_byte(byte))
            && self.name[length..].iter().all(|&byte| byte == 0)
            && (1..=limits::MODULES).contains(&(self.module_count as usize))
    }

    fn good_module(&self, module: &Module, previous: Option<u32>) -> bool {
        module.level <= limits::LEVEL
            && level_follows(module.level, previous)
            && [module.inputs, module.outputs, module.bidirs].iter().all(|&n| n <= limits::TERMINALS)
            && good_chains(module)
            && self.good_position(module)
            && self.good_tests(module)
    }

    fn good_position(&self, module: &Module) -> bool {
        let (x, y) = (module.x, module.y);
        let in_limit = given_within(x, limits::POSITION) && given_within(y, limits::POSITION);
        in_limit && pair_agrees(x, y) && (self.xy || x == NOT_GIVEN)
    }

    fn good_tests(&self, module: &Module) -> bool {
        let count = module.test_count as usize;
        count <= limits::TESTS
            && module.tests[..count].iter().all(|test| self.good_test(test))
            && module.tests[count..].iter().all(|test| *test == Test::default())
    }

    fn good_test(&self, test: &Test) -> bool {
        (1..=limits::PATTERNS).contains(&test.patterns)
            && given_within(test.power, limits::POWER)
            && (self.power || test.power == NOT_GIVEN)
    }
}

pub fn name_byte(byte: u8) -> bool {
    byte.is_ascii_alphanumeric() || byte == b'_' || byte == b'-'
}

/// Module 0 has level 0; another has a level from 1 to the previous module's level plus 1.
pub fn level_follows(level: u32, previous: Option<u32>) -> bool {
    match previous {
        None => level == 0,
        Some(previous) => (1..=previous + 1).contains(&level),
    }
}

/// The terminals of module 0 are the SOC's pins and need no access mechanism.
pub fn tam_use_allowed(module: u32, tam_use: bool) -> bool {
    module != 0 || !tam_use
}

/// X and Y are both -1 or neither.
pub fn pair_agrees(x: i32, y: i32) -> bool {
    (x == NOT_GIVEN) == (y == NOT_GIVEN)
}

fn given_within(figure: i32, limit: u32) -> bool {
    figure == NOT_GIVEN || u32::try_from(figure).is_ok_and(|figure| figure <= limit)
}

fn good_chains(module: &Module) -> bool {
    let count = module.chain_count as usize;
    count <= limits::CHAINS
        && module.lengths[..count].iter().all(|length| (1..=limits::CHAIN_LENGTH).contains(&length.0))
        && module.lengths[count..].iter().all(|length| length.0 == 0)
}
