//! Reading a SOC text to its record (refusals 1 to 6, 17).

use std::ops::Range;

use crate::block::{read_block, LevelDue, NumberDue};
use crate::limits;
use crate::lines::LineReader;
use crate::refusal::{demand, Refusal};
use crate::soc::{name_byte, Options, Soc};

pub fn read(text: &[u8]) -> Result<Soc, Refusal> {
    Ok(read_with_parts(text)?.0)
}

/// The record, and for each of its modules where in the text its lines stand.
pub fn read_with_parts(text: &[u8]) -> Result<(Soc, Vec<Range<usize>>), Refusal> {
    let mut lines = lines_of(text)?;
    let mut soc = Soc::spare();
    let name = read_name("SocName", &mut lines)?;
    soc.name[..name.len()].copy_from_slice(name);
    soc.name_length = name.len() as u32;
    soc.module_count = read_module_count(&mut lines)?;
    let options = read_options(&mut lines)?;
    (soc.power, soc.xy) = (options.power, options.xy);
    let mut parts = Vec::new();
    let mut previous = None;
    for number in 0..soc.module_count {
        let block = read_block(NumberDue::Exactly(number), LevelDue::After(previous), options, &mut lines)?;
        previous = Some(block.module.level);
        soc.modules[number as usize] = block.module;
        parts.push(block.part);
    }
    lines.finish()?;
    Ok((soc, parts))
}

/// The lines of a text whose length and bytes are allowed, which is judged before any field (refusals 1, 2).
pub fn lines_of(text: &[u8]) -> Result<LineReader<'_>, Refusal> {
    demand(text.len() <= limits::TEXT_BYTES, 1)?;
    check_bytes(text)?;
    Ok(LineReader::new(text))
}

fn check_bytes(text: &[u8]) -> Result<(), Refusal> {
    let mut line = 1;
    for (place, &byte) in text.iter().enumerate() {
        let allowed = match byte {
            b'\t' | b'\n' | 32..=126 => true,
            b'\r' => text.get(place + 1) == Some(&b'\n'),
            _ => false,
        };
        if !allowed {
            return Err(Refusal::at(2, line));
        }
        line += usize::from(byte == b'\n');
    }
    Ok(())
}

/// The line that begins the text: its keyword and the SOC's name.
pub fn read_name<'a>(keyword: &str, lines: &mut LineReader<'a>) -> Result<&'a [u8], Refusal> {
    let mut fields = lines.due()?;
    fields.keyword(keyword)?;
    let name = fields.field()?;
    let good = name.len() <= limits::NAME_BYTES && name.iter().all(|&byte| name_byte(byte));
    fields.demand(good, 3)?;
    fields.end()?;
    Ok(name)
}

fn read_module_count(lines: &mut LineReader) -> Result<u32, Refusal> {
    let mut fields = lines.due()?;
    fields.keyword("TotalModules")?;
    let count = fields.number(1, limits::MODULES as u32)?;
    fields.end()?;
    Ok(count)
}

pub fn read_options(lines: &mut LineReader) -> Result<Options, Refusal> {
    let mut fields = lines.due()?;
    fields.keyword("Options")?;
    fields.keyword("Power")?;
    let power = fields.flag()?;
    fields.keyword("XY")?;
    let xy = fields.flag()?;
    fields.end()?;
    Ok(Options { power, xy })
}
