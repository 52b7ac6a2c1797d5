//! Why a run ends without its result.

use std::io;
use std::path::{Path, PathBuf};

use crate::excerpt::line_of;
use crate::spot::spot;

pub enum Failure {
    /// The library refused what a file holds, or a number asked of it.
    Refused(Refusal),
    /// The arguments make no sense. Help and version, which end a run too, come this way.
    Call(clap::Error),
    /// A file that cannot be read or written.
    System { file: PathBuf, error: io::Error },
}

impl Failure {
    pub fn system(file: &Path, error: io::Error) -> Self {
        Failure::System { file: file.to_path_buf(), error }
    }
}

/// A refusal, and what it is told with.
#[derive(Debug, PartialEq, Eq)]
pub struct Refusal {
    pub number: u8,
    /// Counted from 1, or 0 where the refusal has none.
    pub line: u64,
    pub place: Place,
    /// Of a pair, the text that is meant.
    pub text: Option<&'static str>,
    /// What is known beyond the words: a count, or what would have been right.
    pub known: Option<String>,
    /// The line as it is shown beneath the message, and the byte of it that is meant.
    pub shown: Option<(Vec<u8>, Option<usize>)>,
}

/// What a refusal belongs to.
#[derive(Debug, PartialEq, Eq)]
pub enum Place {
    File(PathBuf),
    Argument { name: &'static str, value: String },
}

impl Refusal {
    /// A refusal of a text, with its line or without.
    pub fn of_text(file: &Path, text: &[u8], number: u8, line: u64) -> Self {
        let shown = line_of(text, line);
        let spot = shown.and_then(|bytes| spot(bytes, number));
        let known = spot.as_ref().and_then(|spot| spot.known.clone());
        let shown = shown.map(|bytes| (bytes.to_vec(), spot.map(|spot| spot.at)));
        Refusal { number, line, place: Place::File(file.to_path_buf()), text: None, known, shown }
    }

    /// The same of one of the two texts of a pair.
    pub fn of_pair(self, text: &'static str) -> Self {
        Refusal { text: Some(text), ..self }
    }

    pub fn without_line(place: Place, number: u8, known: Option<String>) -> Self {
        Refusal { number, line: 0, place, text: None, known, shown: None }
    }
}

impl From<Refusal> for Failure {
    fn from(refusal: Refusal) -> Self {
        Failure::Refused(refusal)
    }
}
