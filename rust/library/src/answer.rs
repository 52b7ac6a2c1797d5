//! An answer of the library, taken apart.

/// What one call answers: a figure, or a refusal with its line (0 where it has none).
#[derive(Clone, Copy, Debug, PartialEq, Eq)]
pub enum Answer {
    Figure(u64),
    Refused { number: u8, line: u64 },
}

impl Answer {
    /// Splits the number that the C interface gives.
    pub fn from_number(answer: u64) -> Self {
        let (number, rest) = ((answer % 256) as u8, answer / 256);
        match number {
            0 => Answer::Figure(rest),
            _ => Answer::Refused { number, line: rest },
        }
    }

    /// The figure, or None for a refusal.
    pub fn figure(self) -> Option<u64> {
        match self {
            Answer::Figure(figure) => Some(figure),
            Answer::Refused { .. } => None,
        }
    }

    /// The refusal's number and line, or None for a figure.
    pub fn refusal(self) -> Option<(u8, u64)> {
        match self {
            Answer::Figure(_) => None,
            Answer::Refused { number, line } => Some((number, line)),
        }
    }
}

#[cfg(test)]
mod tests {
    use super::Answer;

    #[test]
    fn numbers_are_split() {
        assert_eq!(Answer::from_number(0), Answer::Figure(0));
        assert_eq!(Answer::from_number(300 * 256), Answer::Figure(300));
        assert_eq!(Answer::from_number(61_440 * 256 + 2), Answer::Refused { number: 2, line: 61_440 });
        assert_eq!(Answer::from_number(14), Answer::Refused { number: 14, line: 0 });
        assert_eq!(Answer::from_number(u64::MAX), Answer::Refused { number: 255, line: u64::MAX / 256 });
    }

    #[test]
    fn a_refusal_has_no_figure() {
        let (figure, refused) = (Answer::Figure(7), Answer::Refused { number: 4, line: 9 });
        assert_eq!((figure.figure(), figure.refusal()), (Some(7), None));
        assert_eq!((refused.figure(), refused.refusal()), (None, Some((4, 9))));
    }
}
