//! Counts what became of the cases, so that a run cannot pass by testing nothing.

use crate::compare::Outcome;
use crate::kinds::Kind;

/// The highest refusal number.
pub const REFUSALS: usize = 18;

#[derive(Clone, Default)]
pub struct Tally {
    /// Cases accepted (0) and refused with each number.
    counts: [u64; REFUSALS + 1],
}

impl Tally {
    pub fn count(&mut self, outcome: Outcome) {
        self.counts[usize::from(outcome.0)] += 1;
    }

    pub fn cases(&self) -> u64 {
        self.counts.iter().sum()
    }

    pub fn add(&mut self, other: &Tally) {
        for (mine, others) in self.counts.iter_mut().zip(other.counts) {
            *mine += others;
        }
    }

    /// Outcomes that should have occurred and did not.
    pub fn missing(&self, kind: &Kind) -> Vec<u8> {
        kind.must_occur.iter().copied().filter(|&number| self.counts[usize::from(number)] == 0).collect()
    }

    /// `name: N cases, accepted A, refused 3: B, 4: C`.
    pub fn summary(&self, name: &str) -> String {
        let refused: Vec<String> =
            (1..=REFUSALS).filter(|&number| self.counts[number] > 0).map(|number| format!("{number}: {}", self.counts[number])).collect();
        let refused = if refused.is_empty() { "none".to_string() } else { refused.join(", ") };
        format!("{name}: {} cases, accepted {}, refused {refused}", self.cases(), self.counts[0])
    }
}

#[cfg(test)]
mod tests {
    use super::*;
    use crate::kinds::KINDS;

    #[test]
    fn what_never_occurred_is_missed() {
        let mut tally = Tally::default();
        assert_eq!(tally.missing(&KINDS[0]), KINDS[0].must_occur);
        for &number in KINDS[0].must_occur {
            tally.count(Outcome(number));
        }
        assert!(tally.missing(&KINDS[0]).is_empty());
        assert_eq!(tally.summary("text"), "text: 2 cases, accepted 1, refused 11: 1");
    }
}
