//! A SOC text, the base, and an overlay: the refusals of what is asked of the pair, and the lines of a module as they stand.

use std::path::{Path, PathBuf};

use tallowwing_library::{self as library, Answer, SOC_BYTES, TEXT_MAX};

use crate::failure::{Failure, Place, Refusal};
use crate::input;
use crate::soc_file::{Argument, SocFile};

pub struct PairFile {
    base: PathBuf,
    overlay: PathBuf,
    base_text: Vec<u8>,
    overlay_text: Vec<u8>,
}

impl PairFile {
    pub fn read(base: &Path, overlay: &Path) -> Result<Self, Failure> {
        let (base_text, overlay_text) = (input::read(base, TEXT_MAX)?, input::read(overlay, TEXT_MAX)?);
        Ok(PairFile { base: base.to_path_buf(), overlay: overlay.to_path_buf(), base_text, overlay_text })
    }

    pub fn base(&self) -> &[u8] {
        &self.base_text
    }

    pub fn overlay(&self) -> &[u8] {
        &self.overlay_text
    }

    /// The combined description's record.
    pub fn soc(&self) -> Result<SocFile, Failure> {
        let mut record = Box::new([0; SOC_BYTES]);
        match library::read_pair(&self.base_text, &self.overlay_text, &mut record[..]) {
            Answer::Figure(_) => Ok(SocFile::of_record(&self.base, record)),
            Answer::Refused { number, line } => Err(self.refusal(number, line, &[]).into()),
        }
    }

    /// The lines of a module, of the text that has them.
    pub fn lines(&self, module: u32) -> Result<&[u8], Failure> {
        let figure = self.figure(library::module_lines(&self.base_text, &self.overlay_text, module), &[("MODULE", module.into())])?;
        let text = if figure % 2 == 1 { &self.overlay_text } else { &self.base_text };
        Ok(&text[(figure / 131_072) as usize..(figure / 2 % 65_536) as usize])
    }

    /// The figure that the library gives, or its refusal, told of the text or of the argument that it belongs to.
    pub fn figure(&self, answer: Answer, arguments: &[Argument]) -> Result<u64, Failure> {
        match answer {
            Answer::Figure(figure) => Ok(figure),
            Answer::Refused { number, line } => Err(self.refusal(number, line, arguments).into()),
        }
    }

    /// The library has the text that is meant below the line. What is about neither text is told of the combined description.
    fn refusal(&self, number: u8, figure: u64, arguments: &[Argument]) -> Refusal {
        let line = figure / 4;
        match figure % 4 {
            1 => Refusal::of_text(&self.base, &self.base_text, number, line).of_pair("base"),
            2 => Refusal::of_text(&self.overlay, &self.overlay_text, number, line).of_pair("overlay"),
            _ => match self.soc() {
                Ok(soc) => soc.refusal(number, arguments),
                Err(_) => Refusal::without_line(Place::File(self.base.clone()), number, None),
            },
        }
    }
}
