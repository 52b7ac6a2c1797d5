//! The comparison held against itself: an honest subject must pass, and one that lies must be caught each time.

use tallowwing_library::Answer;

use crate::case::{Case, Entry, ENTRIES};
use crate::census::REFUSALS;
use crate::compare::{compare, Lent, Subject, GUARD};
use crate::kinds::{make_case, KINDS, SLOW};

/// The independent implementation's own answers, made wrong in one way.
#[derive(Clone, Copy, Debug, PartialEq, Eq)]
enum Lie {
    None,
    FigureOneMore,
    NumberChanged,
    LineOneMore,
    AcceptedInstead,
    RefusedInstead,
    ResultByteChanged,
    LastResultByteChanged,
    ByteBehindResultWritten,
    ByteWrittenThoughRefused,
    ByteBeforeFrontWritten,
    ByteBehindLentWritten,
    InputWritten,
}

const LIES: [Lie; 12] = [
    Lie::FigureOneMore,
    Lie::NumberChanged,
    Lie::LineOneMore,
    Lie::AcceptedInstead,
    Lie::RefusedInstead,
    Lie::ResultByteChanged,
    Lie::LastResultByteChanged,
    Lie::ByteBehindResultWritten,
    Lie::ByteWrittenThoughRefused,
    Lie::ByteBeforeFrontWritten,
    Lie::ByteBehindLentWritten,
    Lie::InputWritten,
];

impl Lie {
    /// Whether the lie can be told of a call with this answer.
    fn applies(self, case: &Case, answer: Answer) -> bool {
        let (accepted, writes) = (answer.figure().is_some(), case.entry.writes());
        match self {
            Lie::None | Lie::ByteBeforeFrontWritten | Lie::ByteBehindLentWritten => true,
            Lie::FigureOneMore | Lie::RefusedInstead => accepted,
            Lie::NumberChanged | Lie::LineOneMore | Lie::AcceptedInstead => !accepted,
            Lie::ResultByteChanged | Lie::LastResultByteChanged => accepted && writes,
            Lie::ByteBehindResultWritten => accepted && writes && answer.figure() < Some(case.room as u64),
            Lie::ByteWrittenThoughRefused => !accepted && case.room > 0,
            Lie::InputWritten => !case.input.is_empty(),
        }
    }

    /// Whether some case must have come up in which the lie is told of this entry.
    fn expected(self, entry: Entry) -> bool {
        let writes = entry.writes();
        match self {
            Lie::ResultByteChanged | Lie::LastResultByteChanged | Lie::ByteBehindResultWritten | Lie::ByteWrittenThoughRefused => writes,
            _ => true,
        }
    }

    fn changed(self, answer: Answer) -> Answer {
        match (self, answer) {
            (Lie::FigureOneMore, Answer::Figure(figure)) => Answer::Figure(figure + 1),
            (Lie::NumberChanged, Answer::Refused { number, line }) => Answer::Refused { number: number % REFUSALS as u8 + 1, line },
            (Lie::LineOneMore, Answer::Refused { number, line }) => Answer::Refused { number, line: line + 1 },
            (Lie::AcceptedInstead, _) => Answer::Figure(0),
            (Lie::RefusedInstead, _) => Answer::Refused { number: 14, line: 0 },
            _ => answer,
        }
    }
}

impl Subject for Lie {
    fn ask(&self, case: &Case, input: &mut Lent, lent: &mut Lent) -> Answer {
        let answer = case.ask_independent(input.part(), lent.part());
        let end = lent.all.len() - GUARD;
        let result = answer.figure().unwrap_or(0) as usize;
        match self {
            Lie::ResultByteChanged => lent.all[GUARD] ^= 1,
            Lie::LastResultByteChanged => lent.all[GUARD + result - 1] ^= 0x80,
            Lie::ByteBehindResultWritten => lent.all[GUARD + result] ^= 0xFF,
            Lie::ByteWrittenThoughRefused => lent.all[GUARD] ^= 0xFF,
            Lie::ByteBeforeFrontWritten => lent.all[GUARD - 1] ^= 0xFF,
            Lie::ByteBehindLentWritten => lent.all[end] ^= 0xFF,
            Lie::InputWritten => input.part()[0] ^= 1,
            _ => {}
        }
        self.changed(answer)
    }
}

/// Puts cases to liars. Err tells of one that was not caught, or had no occasion to lie.
pub fn self_test(cases: u64, seed: u64) -> Result<String, String> {
    let mut told = vec![[0u64; LIES.len()]; ENTRIES.len()];
    for number in 0..cases {
        let (kind, case) = make_case(seed, number);
        if KINDS[kind].name == SLOW {
            continue;
        }
        compare(&case, &Lie::None).map_err(|difference| format!("case {number}: an honest answer was called wrong: {difference}"))?;
        let answer = case.ask_independent(&case.input, Lent::for_result(case.room).part());
        let entry = ENTRIES.iter().position(|&entry| entry == case.entry).unwrap_or(0);
        for (index, lie) in LIES.iter().enumerate().filter(|(_, lie)| lie.applies(&case, answer)) {
            if compare(&case, lie).is_ok() {
                return Err(format!("case {number}: {lie:?} in {} was not caught", case.entry.name()));
            }
            told[entry][index] += 1;
        }
    }
    for (entry, counts) in ENTRIES.iter().zip(&told) {
        if let Some((lie, _)) = LIES.iter().zip(counts).find(|(lie, &count)| count == 0 && lie.expected(*entry)) {
            return Err(format!("{lie:?} was never told in {}", entry.name()));
        }
    }
    let lies: u64 = told.iter().flatten().sum();
    Ok(format!(
        "self-test: {cases} cases, honest answers all passed, {lies} lies of {} kinds in {} entries all caught",
        LIES.len(),
        ENTRIES.len()
    ))
}
