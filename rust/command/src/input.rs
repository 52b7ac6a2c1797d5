//! Reading a file, or standard input for `-`, in bounded memory.

use std::fs::File;
use std::io::{self, Read};
use std::path::Path;

use crate::failure::Failure;

/// Reads at most one byte more than `most`: with that byte the library already sees that there are too many.
pub fn read(file: &Path, most: usize) -> Result<Vec<u8>, Failure> {
    let source: io::Result<Box<dyn Read>> = if file == Path::new("-") {
        Ok(Box::new(io::stdin().lock()))
    } else {
        File::open(file).map(|open| Box::new(open) as Box<dyn Read>)
    };
    let mut bytes = Vec::new();
    source.and_then(|source| source.take(most as u64 + 1).read_to_end(&mut bytes)).map_err(|error| Failure::system(file, error))?;
    Ok(bytes)
}
