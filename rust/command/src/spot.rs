//! Where on its line a refusal of a text lies, as far as the line alone tells it. The library has decided; this is for the message, and
//! judges nothing.

use crate::refusals::{FORBIDDEN_BYTE, MODULE_0_ON_TAM, NOT_DECIMAL};

/// The byte of the line that is meant, and what would have been right.
#[derive(Debug, PartialEq, Eq)]
pub struct Spot {
    pub at: usize,
    pub known: Option<String>,
}

/// What may stand behind a keyword: from, to, and whether -1 may.
const LIMITS: [(&str, u64, u64, bool); 13] = [
    ("TotalModules", 1, 40, false),
    ("Module", 0, u64::MAX, false),
    ("Level", 0, 40, false),
    ("Inputs", 0, 8_191, false),
    ("Outputs", 0, 8_191, false),
    ("Bidirs", 0, 8_191, false),
    ("ScanChains", 0, 64, false),
    ("X", 0, 1_000_000, true),
    ("Y", 0, 1_000_000, true),
    ("TotalTests", 0, 8, false),
    ("Test", 0, u64::MAX, false),
    ("Patterns", 1, 16_777_215, false),
    ("Power", 0, 16_777_215, true),
];

/// What each length behind the colon may be.
const LENGTH: (u64, u64, bool) = (1, 4_096, false);

pub fn spot(line: &[u8], number: u8) -> Option<Spot> {
    match number {
        FORBIDDEN_BYTE => line.iter().position(|&byte| !allowed(byte)).map(|at| Spot { at, known: None }),
        NOT_DECIMAL => outside_its_limit(line),
        MODULE_0_ON_TAM => behind_tam_use(line).map(|at| Spot { at, known: None }),
        _ => None,
    }
}

/// Whether a SOC text may hold a byte within a line.
fn allowed(byte: u8) -> bool {
    byte == b'\t' || (32..=126).contains(&byte)
}

/// The first number of the line that is not what may stand behind its keyword.
fn outside_its_limit(line: &[u8]) -> Option<Spot> {
    let (mut keyword, mut lengths) = ("", false);
    for (at, field) in fields(line) {
        let behind = LIMITS.iter().find(|limit| limit.0 == keyword).map(|limit| (limit.1, limit.2, limit.3));
        let due = if lengths { Some(LENGTH) } else { behind };
        match due {
            Some((from, to, not_given)) if !within(field, from, to, not_given) => {
                return Some(Spot { at, known: Some(format!("{field} is not {}", told(from, to, not_given))) });
            }
            _ => {}
        }
        lengths |= field == ":";
        keyword = field;
    }
    None
}

/// The flag of a test line that says TamUse.
fn behind_tam_use(line: &[u8]) -> Option<usize> {
    fields(line).skip_while(|field| field.1 != "TamUse").nth(1).map(|field| field.0)
}

/// The fields of a line with the places where they begin. A text that is refused for a number has no bytes but those of ASCII.
fn fields(line: &[u8]) -> impl Iterator<Item = (usize, &str)> {
    let text = std::str::from_utf8(line).unwrap_or("");
    let parts = text.split([' ', '\t', '\r']).filter(|part| !part.is_empty());
    parts.map(move |part| (part.as_ptr() as usize - text.as_ptr() as usize, part))
}

fn within(field: &str, from: u64, to: u64, not_given: bool) -> bool {
    let plain = field.bytes().all(|byte| byte.is_ascii_digit()) && (field == "0" || !field.starts_with('0'));
    // Module and test numbers have no limit of their own.
    let decimal = plain && (to == u64::MAX || field.parse().is_ok_and(|number: u64| (from..=to).contains(&number)));
    decimal || (not_given && field == "-1")
}

fn told(from: u64, to: u64, not_given: bool) -> String {
    let limit = if to == u64::MAX { "a decimal".to_string() } else { format!("from {from} to {}", grouped(to)) };
    if not_given {
        format!("{limit}, nor -1")
    } else {
        limit
    }
}

/// A number with its digits in groups of three.
fn grouped(number: u64) -> String {
    match number {
        0..=999 => number.to_string(),
        _ => format!("{},{:03}", grouped(number / 1_000), number % 1_000),
    }
}

#[cfg(test)]
mod tests {
    use super::*;

    #[track_caller]
    fn lies(line: &str, at: usize, known: &str) {
        assert_eq!(spot(line.as_bytes(), NOT_DECIMAL), Some(Spot { at, known: Some(known.to_string()) }));
    }

    #[test]
    fn the_first_number_outside_its_limit() {
        lies("TotalModules 41", 13, "41 is not from 1 to 40");
        lies("Module 1 Level 41 Inputs 9000", 15, "41 is not from 0 to 40");
        lies("Module 1 Level 1 Inputs 0 Outputs 0 Bidirs 8192", 43, "8192 is not from 0 to 8,191");
        lies("Module 1 Level 1 Inputs 0 Outputs 0 Bidirs 0 ScanChains 2: 1 1", 56, "2: is not from 0 to 64");
        lies("ScanChains 3 : 4096 0 4097", 20, "0 is not from 1 to 4,096");
        lies("Module 1\tX 5 Y 1000001", 15, "1000001 is not from 0 to 1,000,000, nor -1");
        lies("Patterns 16777216 Power -2", 9, "16777216 is not from 1 to 16,777,215");
        lies("Patterns 1 Power -2\r", 17, "-2 is not from 0 to 16,777,215, nor -1");
    }

    #[test]
    fn numbers_without_a_limit_of_their_own() {
        lies("Module 01 Level 0", 7, "01 is not a decimal");
        lies("Module 1 Test -1", 14, "-1 is not a decimal");
        assert_eq!(spot(b"Module 99999999999999999999999 Level 0", NOT_DECIMAL), None);
    }

    /// A text with every keyword that a number stands behind.
    const TEXT: &str = "SocName x\nTotalModules 1\nOptions Power 1 XY 1\n\
        Module 0 Level 0 Inputs 0 Outputs 0 Bidirs 0 ScanChains 1 : 1\nModule 0 X 0 Y 0\nModule 0 TotalTests 1\n\
        Module 0 Test 1 ScanUse 1 TamUse 0 Patterns 1 Power 0\n";

    /// Whether the library refuses TEXT with 4 when a number stands behind a keyword.
    fn refused(keyword: &str, number: &str) -> bool {
        let place = TEXT.rfind(&format!("{keyword} ")).expect("the keyword") + keyword.len() + 1;
        let text = format!("{}{number}{}", &TEXT[..place], &TEXT[place + 1..]);
        let answer = tallowwing_library::read_soc(text.as_bytes(), &mut [0; tallowwing_library::SOC_BYTES]);
        answer.refusal().is_some_and(|refusal| refusal.0 == NOT_DECIMAL)
    }

    #[test]
    fn the_limits_are_the_library_s() {
        let length = (":", LENGTH.0, LENGTH.1, LENGTH.2);
        for (keyword, from, to, not_given) in LIMITS.into_iter().chain([length]) {
            let mut numbers = vec![from.to_string(), to.to_string(), "-1".to_string(), "-2".to_string(), "00".to_string()];
            numbers.extend(to.checked_add(1).map(|number| number.to_string()));
            numbers.extend(from.checked_sub(1).map(|number| number.to_string()));
            for number in numbers {
                assert_eq!(refused(keyword, &number), !within(&number, from, to, not_given), "{keyword} {number}");
            }
        }
    }

    #[test]
    fn the_flag_that_is_meant() {
        assert_eq!(spot(b"Module 0 Test 1 ScanUse 0\tTamUse  1", MODULE_0_ON_TAM), Some(Spot { at: 34, known: None }));
        assert_eq!(spot(b"Module 0", MODULE_0_ON_TAM), None);
    }

    #[test]
    fn other_refusals_are_about_the_line() {
        assert_eq!(spot(b"TotalModules 41", 3), None);
        assert_eq!(spot(b"a\tb\x7f", FORBIDDEN_BYTE), Some(Spot { at: 3, known: None }));
    }
}
