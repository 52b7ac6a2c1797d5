//! What a plan, a layout or a time is asked of: a SOC text alone, or one with an overlay on it. Each text is read once, and what is asked
//! is then asked of the record, which of a pair is the combined description's.

use std::path::Path;

use tallowwing_library as library;

use crate::failure::Failure;
use crate::pair_file::PairFile;
use crate::soc_file::SocFile;

pub struct Source(SocFile);

impl Source {
    pub fn read(path: &Path, overlay: Option<&Path>) -> Result<Self, Failure> {
        Ok(Source(match overlay {
            None => SocFile::read(path)?,
            Some(overlay) => PairFile::read(path, overlay)?.soc()?,
        }))
    }

    pub fn soc(&self) -> &SocFile {
        &self.0
    }

    pub fn plan(&self, wires: u32, limit: u32, capture: u32, plan: &mut [u8]) -> Result<u64, Failure> {
        let asked = [("W", wires.into()), ("B", limit.into()), ("C", capture.into())];
        self.0.figure(library::plan(self.0.record(), wires, limit, capture, plan), &asked)
    }

    pub fn layout(&self, module: u32, test: u32, width: u32, capture: u32, layout: &mut [u8]) -> Result<u64, Failure> {
        let asked = [("MODULE", module.into()), ("TEST", test.into()), ("WIDTH", width.into()), ("C", capture.into())];
        self.0.figure(library::layout(self.0.record(), module, test, width, capture, layout), &asked)
    }

    pub fn module_time(&self, module: u32, width: u32, capture: u32) -> Result<u64, Failure> {
        let asked = [("MODULE", module.into()), ("WIDTH", width.into()), ("C", capture.into())];
        self.0.figure(library::module_time(self.0.record(), module, width, capture), &asked)
    }

    pub fn module_wires(&self, module: u32, width: u32, capture: u32) -> Result<u64, Failure> {
        let asked = [("MODULE", module.into()), ("WIDTH", width.into()), ("C", capture.into())];
        self.0.figure(library::module_wires(self.0.record(), module, width, capture), &asked)
    }
}
