//! A module block: the lines of one module, in a SOC text or in an overlay.

use std::ops::Range;

use crate::limits;
use crate::lines::{Fields, LineReader};
use crate::refusal::Refusal;
use crate::soc::{level_follows, pair_agrees, tam_use_allowed, Module, Options, Test, NOT_GIVEN};
use crate::units::FlipFlops;

/// A module, its number, and where in the text its lines stand, first field to last.
#[derive(Clone, Debug, PartialEq, Eq)]
pub struct Block {
    pub number: u32,
    pub module: Module,
    pub part: Range<usize>,
}

/// What is due of the number on a block's first line. On its other lines that same number is due.
#[derive(Clone, Copy)]
pub enum NumberDue {
    /// In a SOC text: this one; any other is 5, however long.
    Exactly(u32),
    /// In an overlay: any that is greater than that of the block before it; one that no SOC can have is 4.
    Above(Option<u32>),
}

/// Whether the rule of levels is tested.
#[derive(Clone, Copy)]
pub enum LevelDue {
    /// In a SOC text: against the previous module's level.
    After(Option<u32>),
    /// In an overlay: the limit alone.
    Any,
}

pub fn read_block(number: NumberDue, level: LevelDue, options: Options, lines: &mut LineReader) -> Result<Block, Refusal> {
    let mut module = Module { x: NOT_GIVEN, y: NOT_GIVEN, ..Module::SPARE };
    let mut fields = lines.due()?;
    let start = lines.part().start;
    fields.keyword("Module")?;
    let number = read_number(number, &mut fields)?;
    read_level_line(&mut module, level, &mut fields)?;
    let mut fields = module_line(number, lines)?;
    // The third field alone tells a position line from the one that says how many tests there are.
    if options.xy && fields.peek() == Some(b"X") {
        read_position(&mut module, &mut fields)?;
        fields = module_line(number, lines)?;
    }
    fields.keyword("TotalTests")?;
    module.test_count = fields.number(0, limits::TESTS as u32)?;
    fields.end()?;
    for test in 0..module.test_count as usize {
        module.tests[test] = read_test(number, test as u32 + 1, options.power, lines)?;
    }
    Ok(Block { number, module, part: start..lines.part().end })
}

fn read_number(due: NumberDue, fields: &mut Fields) -> Result<u32, Refusal> {
    match due {
        NumberDue::Exactly(number) => {
            fields.due_number(number)?;
            Ok(number)
        }
        NumberDue::Above(before) => {
            let number = fields.number(0, limits::MODULES as u32 - 1)?;
            fields.demand(before.is_none_or(|before| before < number), 5)?;
            Ok(number)
        }
    }
}

/// A line that begins with the module due.
fn module_line<'a>(number: u32, lines: &mut LineReader<'a>) -> Result<Fields<'a>, Refusal> {
    let mut fields = lines.due()?;
    fields.keyword("Module")?;
    fields.due_number(number)?;
    Ok(fields)
}

/// The rest of a block's first line, behind the number.
fn read_level_line(module: &mut Module, due: LevelDue, fields: &mut Fields) -> Result<(), Refusal> {
    fields.keyword("Level")?;
    module.level = fields.number(0, limits::LEVEL)?;
    if let LevelDue::After(previous) = due {
        fields.demand(level_follows(module.level, previous), 5)?;
    }
    fields.keyword("Inputs")?;
    module.inputs = fields.number(0, limits::TERMINALS)?;
    fields.keyword("Outputs")?;
    module.outputs = fields.number(0, limits::TERMINALS)?;
    fields.keyword("Bidirs")?;
    module.bidirs = fields.number(0, limits::TERMINALS)?;
    fields.keyword("ScanChains")?;
    module.chain_count = fields.number(0, limits::CHAINS as u32)?;
    fields.keyword(":")?;
    for length in &mut module.lengths[..module.chain_count as usize] {
        *length = FlipFlops(fields.number(1, limits::CHAIN_LENGTH)?);
    }
    fields.end()
}

fn read_position(module: &mut Module, fields: &mut Fields) -> Result<(), Refusal> {
    fields.keyword("X")?;
    module.x = fields.number_or_not_given(limits::POSITION)?;
    fields.keyword("Y")?;
    module.y = fields.number_or_not_given(limits::POSITION)?;
    fields.demand(pair_agrees(module.x, module.y), 5)?;
    fields.end()
}

fn read_test(module: u32, number: u32, power: bool, lines: &mut LineReader) -> Result<Test, Refusal> {
    let mut fields = module_line(module, lines)?;
    fields.keyword("Test")?;
    fields.due_number(number)?;
    fields.keyword("ScanUse")?;
    let scan_use = fields.flag()?;
    fields.keyword("TamUse")?;
    let tam_use = fields.flag()?;
    fields.demand(tam_use_allowed(module, tam_use), 17)?;
    fields.keyword("Patterns")?;
    let patterns = fields.number(1, limits::PATTERNS)?;
    let mut test = Test { scan_use, tam_use, patterns, power: NOT_GIVEN };
    if power && !fields.at_end() {
        fields.keyword("Power")?;
        test.power = fields.number_or_not_given(limits::POWER)?;
    }
    fields.end()?;
    Ok(test)
}
