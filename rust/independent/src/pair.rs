//! A SOC text and an overlay on it: the combined description, and the lines of each module (refusal 15).

use std::ops::Range;

use crate::overlay::{self, Overlay};
use crate::refusal::{demand, Refusal};
use crate::soc::Soc;
use crate::soc_text;

/// Which of the two texts is meant.
#[derive(Clone, Copy, Debug, PartialEq, Eq)]
pub enum Text {
    Neither = 0,
    Base = 1,
    Overlay = 2,
}

/// A refusal, and the text that it is about.
#[derive(Clone, Copy, Debug, PartialEq, Eq)]
pub struct PairRefusal {
    pub refusal: Refusal,
    pub text: Text,
}

impl PairRefusal {
    fn of(text: Text) -> impl Fn(Refusal) -> PairRefusal {
        move |refusal| PairRefusal { refusal, text }
    }
}

/// What is asked of an accepted pair is refused for neither text.
impl From<Refusal> for PairRefusal {
    fn from(refusal: Refusal) -> Self {
        PairRefusal { refusal, text: Text::Neither }
    }
}

/// Where the lines of a module stand: the text, and the place in it from the first byte of the first field to behind the last byte of the
/// last field.
#[derive(Clone, Debug, PartialEq, Eq)]
pub struct Part {
    pub text: Text,
    pub place: Range<usize>,
}

/// An accepted pair.
#[derive(Clone, Debug, PartialEq, Eq)]
pub struct Pair {
    /// The combined description: the overlay's modules where it has them, otherwise the base's.
    pub soc: Soc,
    /// The lines of each module.
    pub parts: Vec<Part>,
}

impl Pair {
    /// The lines of a module by its number, or refusal 13.
    pub fn part(&self, module: u32) -> Result<&Part, Refusal> {
        self.parts.get(module as usize).ok_or(Refusal::new(13))
    }
}

/// The base's faults come first, then the overlay's, then 15 where the overlay is not one on this base.
pub fn read(base: &[u8], overlay: &[u8]) -> Result<Pair, PairRefusal> {
    let (mut soc, places) = soc_text::read_with_parts(base).map_err(PairRefusal::of(Text::Base))?;
    let overlay = overlay::read(overlay).map_err(PairRefusal::of(Text::Overlay))?;
    demand(fits(&overlay, &soc), 15).map_err(PairRefusal::of(Text::Overlay))?;
    let mut parts: Vec<Part> = places.into_iter().map(|place| Part { text: Text::Base, place }).collect();
    for block in overlay.blocks {
        let number = block.number as usize;
        soc.modules[number] = block.module;
        parts[number] = Part { text: Text::Overlay, place: block.part };
    }
    Ok(Pair { soc, parts })
}

/// Name and options are the base's, every module is in the base, and has its level there.
fn fits(overlay: &Overlay, base: &Soc) -> bool {
    overlay.name == base.name()
        && overlay.options == base.options()
        && overlay.blocks.iter().all(|block| base.module(block.number).is_ok_and(|module| module.level == block.module.level))
}

/// The lines of a module as that very part of the text they stand in; the empty part where that is refused.
pub fn shown<'a>(base: &'a [u8], overlay: &'a [u8], module: u32) -> &'a [u8] {
    match read(base, overlay).as_ref().map(|pair| pair.part(module)) {
        Ok(Ok(Part { text: Text::Base, place })) => &base[place.clone()],
        Ok(Ok(Part { text: Text::Overlay, place })) => &overlay[place.clone()],
        _ => &[],
    }
}
