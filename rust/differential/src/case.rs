//! A case: one call of one entry.

use independent::entries;
use independent::entries::Outcome;
use independent::pair_entries::{self, for_c};
use tallowwing_library::{self as library, Answer};

#[derive(Clone, Copy, Debug, PartialEq, Eq)]
pub enum Entry {
    ReadSoc,
    WriteSoc,
    Layout,
    ModuleTime,
    ModuleWires,
    Plan,
    WritePlan,
    ReadPlan,
    Show,
    Listing,
    ReadPair,
    ModuleLines,
    WritePair,
    LayoutPair,
    ModuleTimePair,
    ModuleWiresPair,
    PlanPair,
    Budget,
}

pub const ENTRIES: [Entry; 18] = [
    Entry::ReadSoc,
    Entry::WriteSoc,
    Entry::Layout,
    Entry::ModuleTime,
    Entry::ModuleWires,
    Entry::Plan,
    Entry::WritePlan,
    Entry::ReadPlan,
    Entry::Show,
    Entry::Listing,
    Entry::ReadPair,
    Entry::ModuleLines,
    Entry::WritePair,
    Entry::LayoutPair,
    Entry::ModuleTimePair,
    Entry::ModuleWiresPair,
    Entry::PlanPair,
    Entry::Budget,
];

/// The most numbers that an entry takes.
pub const NUMBERS: usize = 4;

impl Entry {
    pub fn name(self) -> &'static str {
        match self {
            Entry::ReadSoc => "read_soc",
            Entry::WriteSoc => "write_soc",
            Entry::Layout => "layout",
            Entry::ModuleTime => "module_time",
            Entry::ModuleWires => "module_wires",
            Entry::Plan => "plan",
            Entry::WritePlan => "write_plan",
            Entry::ReadPlan => "read_plan",
            Entry::Show => "show",
            Entry::Listing => "listing",
            Entry::ReadPair => "read_pair",
            Entry::ModuleLines => "module_lines",
            Entry::WritePair => "write_pair",
            Entry::LayoutPair => "layout_pair",
            Entry::ModuleTimePair => "module_time_pair",
            Entry::ModuleWiresPair => "module_wires_pair",
            Entry::PlanPair => "plan_pair",
            Entry::Budget => "budget",
        }
    }

    pub fn named(name: &str) -> Option<Entry> {
        ENTRIES.into_iter().find(|entry| entry.name() == name)
    }

    /// Whether bytes are lent for a result.
    pub fn writes(self) -> bool {
        let figure_alone = [Entry::ModuleTime, Entry::ModuleWires, Entry::ModuleLines, Entry::ModuleTimePair, Entry::ModuleWiresPair];
        !figure_alone.contains(&self)
    }
}

/// The bytes handed in, the numbers in the order of the C interface (unused ones 0), and how many bytes are lent for the result.
#[derive(Clone, Debug, PartialEq, Eq)]
pub struct Case {
    pub entry: Entry,
    pub numbers: [u64; NUMBERS],
    /// Where the overlay of a pair begins, whose base stands before it; else 0.
    pub overlay_at: usize,
    pub room: usize,
    pub input: Vec<u8>,
}

impl Case {
    /// A case with the numbers that its entry takes.
    pub fn new<const N: usize>(entry: Entry, numbers: [u32; N], input: Vec<u8>) -> Self {
        let mut all = [0; NUMBERS];
        all[..N].copy_from_slice(&numbers.map(u64::from));
        Case { entry, numbers: all, overlay_at: 0, room: 0, input }
    }

    /// A case of the second planner, whose budget alone has more than 32 bits.
    pub fn of_budget([wires, limit, capture]: [u32; 3], budget: u64, record: Vec<u8>) -> Self {
        let numbers = [wires.into(), limit.into(), capture.into(), budget];
        Case { numbers, ..Case::new(Entry::Budget, [], record) }
    }

    /// A case of a base and an overlay.
    pub fn of_pair<const N: usize>(entry: Entry, numbers: [u32; N], base: &[u8], overlay: &[u8]) -> Self {
        Case { overlay_at: base.len(), ..Case::new(entry, numbers, [base, overlay].concat()) }
    }

    /// The two texts of a pair.
    fn pair<'a>(&self, input: &'a [u8]) -> (&'a [u8], &'a [u8]) {
        input.split_at(self.overlay_at.min(input.len()))
    }

    /// What the library answers.
    pub fn ask_library(&self, input: &[u8], lent: &mut [u8]) -> Answer {
        let ([a, b, c, d], [.., budget]) = (self.numbers.map(|number| number as u32), self.numbers);
        let (base, overlay) = self.pair(input);
        match self.entry {
            Entry::ReadSoc => library::read_soc(input, lent),
            Entry::WriteSoc => library::write_soc(input, lent),
            Entry::Layout => library::layout(input, a, b, c, d, lent),
            Entry::ModuleTime => library::module_time(input, a, b, c),
            Entry::ModuleWires => library::module_wires(input, a, b, c),
            Entry::Plan => library::plan(input, a, b, c, lent),
            Entry::WritePlan => library::write_plan(input, lent),
            Entry::ReadPlan => library::read_plan(input, lent),
            Entry::Show => library::show(input, lent),
            Entry::Listing => library::listing(input, lent),
            Entry::ReadPair => library::read_pair(base, overlay, lent),
            Entry::ModuleLines => library::module_lines(base, overlay, a),
            Entry::WritePair => library::write_pair(base, overlay, lent),
            Entry::LayoutPair => library::layout_pair(base, overlay, a, b, c, d, lent),
            Entry::ModuleTimePair => library::module_time_pair(base, overlay, a, b, c),
            Entry::ModuleWiresPair => library::module_wires_pair(base, overlay, a, b, c),
            Entry::PlanPair => library::plan_pair(base, overlay, a, b, c, lent),
            Entry::Budget => library::budget(input, a, b, c, budget, lent),
        }
    }

    /// What the independent implementation answers.
    pub fn ask_independent(&self, input: &[u8], lent: &mut [u8]) -> Answer {
        let ([a, b, c, d], [.., budget]) = (self.numbers.map(|number| number as u32), self.numbers);
        let (base, overlay) = self.pair(input);
        answer(match self.entry {
            Entry::ReadSoc => entries::read_soc(input, lent),
            Entry::WriteSoc => entries::write_soc(input, lent),
            Entry::Layout => entries::layout(input, a, b, c, d, lent),
            Entry::ModuleTime => entries::module_time(input, a, b, c),
            Entry::ModuleWires => entries::module_wires(input, a, b, c),
            Entry::Plan => entries::plan(input, a, b, c, lent),
            Entry::WritePlan => entries::write_plan(input, lent),
            Entry::ReadPlan => entries::read_plan(input, lent),
            Entry::Show => entries::show(input, lent),
            Entry::Listing => entries::listing(input, lent),
            Entry::ReadPair => pair_entries::read_pair(base, overlay, lent).map_err(for_c),
            Entry::ModuleLines => pair_entries::module_lines_for_c(base, overlay, a),
            Entry::WritePair => pair_entries::write_pair(base, overlay, lent).map_err(for_c),
            Entry::LayoutPair => pair_entries::layout_pair(base, overlay, a, b, c, d, lent).map_err(for_c),
            Entry::ModuleTimePair => pair_entries::module_time_pair(base, overlay, a, b, c).map_err(for_c),
            Entry::ModuleWiresPair => pair_entries::module_wires_pair(base, overlay, a, b, c).map_err(for_c),
            Entry::PlanPair => pair_entries::plan_pair(base, overlay, a, b, c, lent).map_err(for_c),
            Entry::Budget => entries::budget(input, a, b, c, budget, lent),
        })
    }
}

fn answer(outcome: Outcome) -> Answer {
    match outcome {
        Ok(figure) => Answer::Figure(figure),
        Err(refusal) => Answer::Refused { number: refusal.number, line: refusal.line as u64 },
    }
}
