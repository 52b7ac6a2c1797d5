//! `tallowwing soc`: the written form of a SOC text.

use std::path::Path;

use tallowwing_library::{self as library, TEXT_MAX};

use crate::failure::Failure;
use crate::output;
use crate::soc_file::SocFile;

pub fn run(file: &Path) -> Result<(), Failure> {
    let soc = SocFile::read(file)?;
    let mut text = vec![0; TEXT_MAX];
    let length = soc.figure(library::write_soc(soc.record(), &mut text), &[])?;
    output::print(&text[..length as usize])
}
