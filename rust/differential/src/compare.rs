//! One case put to both sides: answers, results, and every byte around them.

use tallowwing_library::Answer;

use crate::case::{Case, Entry};

/// Bytes before and behind all that is lent; a call that strays is seen there.
pub const GUARD: usize = 64;

/// Lent bytes between guards.
#[derive(Clone, PartialEq, Eq)]
pub struct Lent {
    pub all: Vec<u8>,
}

impl Lent {
    /// Holds content that is read.
    pub fn holding(content: &[u8]) -> Self {
        let mut lent = Lent::for_result(content.len());
        lent.part().copy_from_slice(content);
        lent
    }

    /// Room for a result, filled with bytes that no result is likely to repeat.
    pub fn for_result(room: usize) -> Self {
        Lent { all: (0..room + 2 * GUARD).map(|place| (place as u8).wrapping_mul(151) ^ 0xA5).collect() }
    }

    pub fn part(&mut self) -> &mut [u8] {
        let end = self.all.len() - GUARD;
        &mut self.all[GUARD..end]
    }
}

/// Whoever is held against the independent implementation.
pub trait Subject {
    fn ask(&self, case: &Case, input: &mut Lent, lent: &mut Lent) -> Answer;
}

pub struct Library;

impl Subject for Library {
    fn ask(&self, case: &Case, input: &mut Lent, lent: &mut Lent) -> Answer {
        case.ask_library(input.part(), lent.part())
    }
}

/// What became of a case: the refusal's number, or 0. Of a listing, that of the line it prints.
#[derive(Clone, Copy, Debug, PartialEq, Eq)]
pub struct Outcome(pub u8);

/// Puts a case to both sides. Err says in words where they differ.
pub fn compare(case: &Case, subject: &dyn Subject) -> Result<Outcome, String> {
    let mut expected_lent = Lent::for_result(case.room);
    let expected = case.ask_independent(&case.input, expected_lent.part());

    let untouched = Lent::holding(&case.input);
    let (mut input, mut lent) = (untouched.clone(), Lent::for_result(case.room));
    let answer = subject.ask(case, &mut input, &mut lent);

    if answer != expected {
        return Err(format!("answer {answer:?}, expected {expected:?}"));
    }
    if let Some(place) = first_difference(&input.all, &untouched.all) {
        return Err(format!("the bytes that are only read were written, at {}", where_is(place)));
    }
    if let Some(place) = first_difference(&lent.all, &expected_lent.all) {
        let (found, wanted) = (lent.all[place], expected_lent.all[place]);
        return Err(format!("byte {found:#04x}, expected {wanted:#04x}, at {}, with answer {answer:?}", where_is(place)));
    }
    Ok(Outcome(match answer {
        Answer::Refused { number, .. } => number,
        Answer::Figure(_) if case.entry == Entry::Listing => listed_refusal(lent.part()),
        Answer::Figure(_) => 0,
    }))
}

fn first_difference(one: &[u8], other: &[u8]) -> Option<usize> {
    one.iter().zip(other).position(|(one, other)| one != other)
}

fn where_is(place: usize) -> String {
    match place.checked_sub(GUARD) {
        Some(offset) => format!("offset {offset}"),
        None => format!("{} bytes before the front", GUARD - place),
    }
}

/// N of a listing `refused N line L`, else 0.
fn listed_refusal(listing: &[u8]) -> u8 {
    let digits = listing.strip_prefix(b"refused ").unwrap_or(b"").iter().take_while(|byte| byte.is_ascii_digit());
    digits.fold(0, |number, digit| number * 10 + (digit - b'0'))
}
