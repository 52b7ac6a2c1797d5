//! Reading an overlay: late changes of some modules of a SOC (refusals 1 to 6 and 17, with the overlay's line).

use crate::block::{read_block, Block, LevelDue, NumberDue};
use crate::refusal::Refusal;
use crate::soc::Options;
use crate::soc_text::{lines_of, read_name, read_options};

/// The blocks are at least one, in strictly ascending number.
#[derive(Clone, Debug, PartialEq, Eq)]
pub struct Overlay {
    /// The name of the SOC that it changes.
    pub name: Vec<u8>,
    pub options: Options,
    pub blocks: Vec<Block>,
}

pub fn read(text: &[u8]) -> Result<Overlay, Refusal> {
    let mut lines = lines_of(text)?;
    let name = read_name("Overlay", &mut lines)?.to_vec();
    let options = read_options(&mut lines)?;
    // The first block is due; further ones are there or not, so every further line must begin or belong to one.
    let mut blocks = vec![read_block(NumberDue::Above(None), LevelDue::Any, options, &mut lines)?];
    while lines.more() {
        let before = blocks.last().map(|block| block.number);
        blocks.push(read_block(NumberDue::Above(before), LevelDue::Any, options, &mut lines)?);
    }
    Ok(Overlay { name, options, blocks })
}
