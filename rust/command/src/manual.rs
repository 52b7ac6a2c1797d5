//! `tallowwing manual`: the manual page, with the version and the refusals put in.

use crate::failure::Failure;
use crate::output;
use crate::refusals::REFUSALS;

const PAGE: &str = include_str!("../man/tallowwing.1");
/// The lines of the page that stand for what is put in.
const VERSION: &str = "@VERSION@";
const TABLE: &str = ".\\\" @REFUSALS@\n";

pub fn run() -> Result<(), Failure> {
    output::print(page().as_bytes())
}

fn page() -> String {
    let entry = |(number, words): (u8, &str)| format!(".TP 4\n.B {number}\n{}.\n", words.replace('-', "\\-"));
    let table: String = REFUSALS.iter().map(|refusal| entry((refusal.number, refusal.words))).collect();
    PAGE.replace(VERSION, env!("CARGO_PKG_VERSION")).replace(TABLE, &table)
}

#[cfg(test)]
mod tests {
    use super::*;

    #[test]
    fn what_is_put_in_has_its_place() {
        assert_eq!((PAGE.matches(VERSION).count(), PAGE.matches(TABLE).count()), (1, 1));
        assert!(!page().contains('@'));
        assert!(page().contains(".B 6\nthe text ends while lines are still due.\n"));
    }
}
