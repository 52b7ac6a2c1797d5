//! How far a long search is: a line on standard error where that is a terminal, and nothing elsewhere.

use std::io::{self, IsTerminal, Write};
use std::iter;
use std::time::Instant;

/// A search of fewer tries is over before a line is read.
const SHORT: u64 = 4_000_000;

/// More tries than the library takes: the call is refused, and there is nothing to tell.
const MOST: u64 = 1_099_511_627_776;

/// Each search has so many times the tries of the one before it: all those before the last have together at most a fifth of its tries.
const TIMES: u64 = 6;

/// What clears the line.
const CLEAR: &str = "\r\x1b[K";

pub struct Progress {
    budgets: Vec<u64>,
    began: Instant,
    spent: u64,
}

impl Progress {
    /// Of a search with so many tries.
    pub fn new(tries: u64) -> Self {
        let budgets = if io::stderr().is_terminal() { growing(tries) } else { vec![tries] };
        Progress { budgets, began: Instant::now(), spent: 0 }
    }

    /// The tries to search with, one after another, the last of which are all of them.
    pub fn budgets(&self) -> Vec<u64> {
        self.budgets.clone()
    }

    /// Tells what a search that was not finished met.
    pub fn tell(&mut self, tries: u64, best: Option<u64>) {
        self.spent += tries;
        if self.budgets.len() > 1 {
            let each_second = self.spent as f64 / self.began.elapsed().as_secs_f64().max(1e-9);
            let best = best.map_or("no plan".to_string(), |time| format!("best time {time}"));
            show(&format!("{CLEAR}tries {tries}, {best}, {each_second:.0} tries a second"));
        }
    }

    /// Leaves an empty line behind.
    pub fn end(&self) {
        if self.budgets.len() > 1 {
            show(CLEAR);
        }
    }
}

/// A standard error that is closed is no reason to end otherwise.
fn show(line: &str) {
    let mut err = io::stderr();
    let _ = err.write_all(line.as_bytes()).and_then(|()| err.flush());
}

fn growing(tries: u64) -> Vec<u64> {
    let next = |tries: &u64| Some(tries / TIMES).filter(|&tries| tries >= SHORT);
    let mut budgets: Vec<u64> = if tries > MOST { vec![tries] } else { iter::successors(Some(tries), next).collect() };
    budgets.reverse();
    budgets
}

#[cfg(test)]
mod tests {
    use super::*;

    #[test]
    fn all_before_the_last_are_a_fifth_of_it() {
        for tries in [0, 1, SHORT, 6 * SHORT - 1, 6 * SHORT, 1_000_000_007, MOST] {
            let budgets = growing(tries);
            assert_eq!(budgets.last(), Some(&tries));
            assert!(budgets.iter().rev().skip(1).sum::<u64>() <= tries / 5);
            assert!(budgets.iter().rev().skip(1).all(|&budget| budget >= SHORT));
        }
        assert_eq!(growing(6 * SHORT), [SHORT, 6 * SHORT]);
    }

    #[test]
    fn what_is_refused_is_asked_once() {
        assert_eq!(growing(MOST + 1), [MOST + 1]);
        assert_eq!(growing(u64::MAX), [u64::MAX]);
    }
}
