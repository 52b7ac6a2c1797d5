//! Wires, flip-flops, cycles and capture cycles: counts that cannot stand for one another.

use std::iter::Sum;
use std::ops::Add;

#[derive(Clone, Copy, Debug, Default, PartialEq, Eq, PartialOrd, Ord)]
pub struct Wires(pub u32);

/// Flip-flops of a chain; a wrapper cell counts as one.
#[derive(Clone, Copy, Debug, Default, PartialEq, Eq, PartialOrd, Ord)]
pub struct FlipFlops(pub u32);

#[derive(Clone, Copy, Debug, Default, PartialEq, Eq, PartialOrd, Ord)]
pub struct Cycles(pub u64);

/// Capture cycles: those between the load and the unload of a pattern, the same for the whole SOC.
#[derive(Clone, Copy, Debug, PartialEq, Eq, PartialOrd, Ord)]
pub struct Capture(pub u32);

impl Add for FlipFlops {
    type Output = FlipFlops;
    fn add(self, other: FlipFlops) -> FlipFlops {
        FlipFlops(self.0 + other.0)
    }
}

impl Add for Cycles {
    type Output = Cycles;
    fn add(self, other: Cycles) -> Cycles {
        Cycles(self.0 + other.0)
    }
}

impl Sum for Cycles {
    fn sum<I: Iterator<Item = Cycles>>(cycles: I) -> Cycles {
        cycles.fold(Cycles(0), Add::add)
    }
}
