//! A refusal: its number and its line.

/// The line is 0 where the refusal has none.
#[derive(Clone, Copy, Debug, PartialEq, Eq)]
pub struct Refusal {
    pub number: u8,
    pub line: usize,
}

impl Refusal {
    pub fn new(number: u8) -> Self {
        Refusal { number, line: 0 }
    }

    pub fn at(number: u8, line: usize) -> Self {
        Refusal { number, line }
    }
}

/// Refuses with a number where a rule does not hold.
pub fn demand(holds: bool, number: u8) -> Result<(), Refusal> {
    if holds {
        Ok(())
    } else {
        Err(Refusal::new(number))
    }
}
