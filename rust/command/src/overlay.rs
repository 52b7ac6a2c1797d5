//! `tallowwing overlay` and `tallowwing lines`: a SOC text with an overlay on it.

use std::path::Path;

use tallowwing_library::{self as library, TEXT_MAX};

use crate::failure::Failure;
use crate::output;
use crate::pair_file::PairFile;

/// The combined description in its written form.
pub fn run(base: &Path, overlay: &Path) -> Result<(), Failure> {
    let pair = PairFile::read(base, overlay)?;
    let mut text = vec![0; TEXT_MAX];
    let length = pair.figure(library::write_pair(pair.base(), pair.overlay(), &mut text), &[])?;
    output::print(&text[..length as usize])
}

/// The lines of a module as they stand, with nothing added.
pub fn lines(base: &Path, overlay: &Path, module: u32) -> Result<(), Failure> {
    output::print(PairFile::read(base, overlay)?.lines(module)?)
}
