//! The plan record and its rules (refusal 12).

use crate::limits;
use crate::refusal::{demand, Refusal};
use crate::units::{Cycles, Wires};

#[derive(Clone, Copy, Debug, Default, PartialEq, Eq)]
pub struct Bus {
    pub width: Wires,
    pub busy: Cycles,
}

/// A planned module and its place in the plan.
#[derive(Clone, Copy, Debug, Default, PartialEq, Eq)]
pub struct Planned {
    pub number: u32,
    pub bus: u32,
    pub wires: Wires,
    pub cycles: Cycles,
    pub start: Cycles,
}

/// Places past a count are spare, and 0 in a good record.
#[derive(Clone, Debug, PartialEq, Eq)]
pub struct Plan {
    pub wires: Wires,
    pub limit: u32,
    pub bus_count: u32,
    pub module_count: u32,
    pub time: Cycles,
    pub buses: [Bus; limits::BUSES],
    pub modules: [Planned; limits::PLANNED],
}

/// All places 0.
impl Default for Plan {
    fn default() -> Self {
        Plan {
            wires: Wires(0),
            limit: 0,
            bus_count: 0,
            module_count: 0,
            time: Cycles(0),
            buses: [Bus::default(); limits::BUSES],
            modules: [Planned::default(); limits::PLANNED],
        }
    }
}

impl Plan {
    pub fn buses(&self) -> &[Bus] {
        &self.buses[..self.bus_count as usize]
    }

    pub fn modules(&self) -> &[Planned] {
        &self.modules[..self.module_count as usize]
    }

    /// Refuses with 12 a record that is not good.
    pub fn check(&self) -> Result<(), Refusal> {
        let good = self.good_counts()
            && self.good_buses()
            && self.good_modules()
            && self.good_figures()
            && self.good_starts()
            && self.good_spares();
        demand(good, 12)
    }

    fn good_counts(&self) -> bool {
        (1..=limits::WIRES).contains(&self.wires.0)
            && (1..=limits::BUSES as u32).contains(&self.limit)
            && (1..=self.limit.min(self.wires.0)).contains(&self.bus_count)
            && (1..=limits::PLANNED as u32).contains(&self.module_count)
    }

    fn good_buses(&self) -> bool {
        let widths: Vec<u64> = self.buses().iter().map(|bus| u64::from(bus.width.0)).collect();
        widths[0] >= 1 && widths.windows(2).all(|pair| pair[0] <= pair[1]) && widths.iter().sum::<u64>() == u64::from(self.wires.0)
    }

    fn good_modules(&self) -> bool {
        self.modules().windows(2).all(|pair| pair[0].number < pair[1].number)
            && self.modules().iter().all(|module| self.good_module(module))
    }

    fn good_module(&self, module: &Planned) -> bool {
        (1..limits::MODULES as u32).contains(&module.number)
            && (1..=self.bus_count).contains(&module.bus)
            && (1..=self.buses[module.bus as usize - 1].width.0).contains(&module.wires.0)
            && (1..=limits::MODULE_CYCLES).contains(&module.cycles.0)
    }

    /// Busy figures are sums and the time is their maximum.
    fn good_figures(&self) -> bool {
        let load = |bus: u32| -> Cycles { self.modules().iter().filter(|module| module.bus == bus).map(|module| module.cycles).sum() };
        let busy: Vec<Cycles> = self.buses().iter().map(|bus| bus.busy).collect();
        (1..=self.bus_count).map(load).eq(busy.iter().copied()) && busy.iter().max() == Some(&self.time)
    }

    /// When a module begins: modules on a bus run in ascending number, so it waits for those with lower numbers on its bus.
    pub fn start_of(&self, module: &Planned) -> Cycles {
        let before = |other: &&Planned| other.bus == module.bus && other.number < module.number;
        self.modules().iter().filter(before).map(|other| other.cycles).sum()
    }

    fn good_starts(&self) -> bool {
        self.modules().iter().all(|module| module.start == self.start_of(module))
    }

    fn good_spares(&self) -> bool {
        self.buses[self.bus_count as usize..].iter().all(|bus| *bus == Bus::default())
            && self.modules[self.module_count as usize..].iter().all(|module| *module == Planned::default())
    }
}
