//! What the command line asks for.

use std::path::PathBuf;

pub const USAGE: &str = "\
usage: differential [--cases N] [--seed S] [--corpus FOLDER] [--found FOLDER]
       differential --self-test [--cases N] [--seed S]

  --cases N         cases to make, 20000 by default (4000 for --self-test); below 20000 it is not asked that every outcome occurs
  --seed S          what they are made from; the same seed gives the same cases
  --corpus FOLDER   cases that are put first, by default the corpus beside the sources
  --found FOLDER    where a case that differs is written, by default the current folder
  --self-test       puts made-up wrong answers to the comparison instead of the library's, and fails if one is not caught

Exit status: 0 no difference; 1 a difference, or an outcome that never occurred; 2 a wrong call.";

const CASES: u64 = 20_000;
const SELF_TEST_CASES: u64 = 4_000;
const SEED: u64 = 695;

#[derive(PartialEq, Eq)]
pub enum Mode {
    Compare,
    SelfTest,
    Help,
}

pub struct Options {
    pub mode: Mode,
    pub cases: u64,
    pub seed: u64,
    pub corpus: PathBuf,
    pub found: PathBuf,
}

impl Options {
    pub fn read(mut words: impl Iterator<Item = String>) -> Result<Self, String> {
        let corpus = PathBuf::from(concat!(env!("CARGO_MANIFEST_DIR"), "/corpus"));
        let mut options = Options { mode: Mode::Compare, cases: CASES, seed: SEED, corpus, found: PathBuf::from(".") };
        let mut cases = None;
        while let Some(word) = words.next() {
            let mut value = || words.next().ok_or(format!("{word} needs a value"));
            match word.as_str() {
                "--cases" => cases = Some(number(&value()?)?),
                "--seed" => options.seed = number(&value()?)?,
                "--corpus" => options.corpus = value()?.into(),
                "--found" => options.found = value()?.into(),
                "--self-test" => options.mode = Mode::SelfTest,
                "--help" | "-h" => options.mode = Mode::Help,
                _ => return Err(format!("{word} is not an option")),
            }
        }
        let default = if options.mode == Mode::SelfTest { SELF_TEST_CASES } else { CASES };
        options.cases = cases.unwrap_or(default);
        Ok(options)
    }
}

fn number(word: &str) -> Result<u64, String> {
    word.parse().map_err(|_| format!("{word} is not a number"))
}
