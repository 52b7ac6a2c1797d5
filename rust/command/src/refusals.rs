//! The refusals in words, said once: messages, the help and the manual are made of this table, and tests hold the README and the header
//! to it.

/// A refusal's number, what is wrong, and the arguments that it may belong to; one without arguments belongs to the file.
pub struct Words {
    pub number: u8,
    pub words: &'static str,
    pub arguments: &'static [&'static str],
}

pub const REFUSALS: &[Words] = &[
    of_file(1, "the text is longer than 61,440 bytes"),
    of_file(FORBIDDEN_BYTE, "a byte is none of tab, LF, CR before LF, or 32 to 126"),
    of_file(3, "a wrong keyword, 0/1 flag, name or form, too few or too many fields, or a line after the last one due"),
    Words { number: NOT_DECIMAL, words: "a number is not decimal or is outside its limit", arguments: &["W", "B"] },
    of_file(5, "a module or test number, a level or an X/Y pair breaks its rule"),
    of_file(6, "the text ends while lines are still due"),
    Words { number: 7, words: "the number of wires is not from 1 to 64", arguments: &["W", "WIDTH"] },
    Words { number: 8, words: "the limit of buses is not from 1 to 3, or to 8 for the planner with a spending limit", arguments: &["B"] },
    of_file(9, "no module is planned: none has a test with TamUse 1"),
    of_file(MANY_PLANNED, "more than 12 modules are planned"),
    of_file(11, "the bytes lent for the result are too few"),
    of_file(12, "this is not a good plan file or plan record"),
    Words { number: NOT_THERE, words: "there is no such module, or no such test in it", arguments: &["MODULE", "TEST"] },
    of_file(14, "the SOC record breaks a limit or rule of the text, or a spare place in it is not 0"),
    of_file(15, "the overlay does not fit the base: another name or options, a module that is not there, or another level"),
    Words { number: 16, words: "the number of capture cycles is not from 1 to 4", arguments: &["C"] },
    of_file(MODULE_0_ON_TAM, "a test of module 0 has TamUse 1: its terminals are the SOC's pins and need no access mechanism"),
    Words { number: 18, words: "the number of tries is not from 1 to 1,099,511,627,776", arguments: &["TRIES"] },
];

/// Refusals that are told with more than their words.
pub const FORBIDDEN_BYTE: u8 = 2;
pub const NOT_DECIMAL: u8 = 4;
pub const MANY_PLANNED: u8 = 10;
pub const NOT_THERE: u8 = 13;
pub const MODULE_0_ON_TAM: u8 = 17;

const fn of_file(number: u8, words: &'static str) -> Words {
    Words { number, words, arguments: &[] }
}

/// The words of a number. The library has no other numbers; were there one, its number is told all the same.
pub fn of(number: u8) -> &'static Words {
    const OTHER: Words = of_file(0, "the library refuses it");
    REFUSALS.iter().find(|words| words.number == number).unwrap_or(&OTHER)
}

#[cfg(test)]
mod tests {
    use super::*;

    #[test]
    fn every_refusal_has_its_number_and_its_own_words() {
        assert!(REFUSALS.windows(2).all(|pair| pair[0].number < pair[1].number));
        for words in REFUSALS {
            assert_eq!(REFUSALS.iter().filter(|other| other.words == words.words).count(), 1);
            assert_eq!(of(words.number).words, words.words);
        }
    }

    #[test]
    fn a_number_that_is_not_there_has_words_too() {
        assert_eq!((of(0).words, of(255).words), ("the library refuses it", "the library refuses it"));
    }
}
