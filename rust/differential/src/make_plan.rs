//! Plans as loose figures: good ones, ones with a rule broken, and their records and files.

use independent::limits;
use tallowwing_library::{places, PLAN_BYTES};

use crate::random::Random;

/// The most cycles of a module with one capture cycle.
const ONE_CAPTURE_CYCLES: u64 = 37_383_261_126_648;

/// A planned module as it stands in a plan, right or wrong.
#[derive(Clone)]
pub struct LooseModule {
    pub number: u32,
    pub bus: u32,
    pub wires: u32,
    pub cycles: u64,
    pub start: u64,
}

/// A plan that no rule holds together, so that each can be broken on its own.
#[derive(Clone)]
pub struct LoosePlan {
    pub wires: u32,
    pub limit: u32,
    /// Width and busy figure of each bus.
    pub buses: Vec<(u32, u64)>,
    pub modules: Vec<LooseModule>,
    pub time: u64,
}

impl LoosePlan {
    pub fn good(random: &mut Random) -> Self {
        let limit = random.within(1, limits::BUSES as u32);
        let count = random.within(1, limit);
        let widths = make_widths(count, random);
        let mut numbers: Vec<u32> = (1..limits::MODULES as u32).collect();
        let modules = make_module_count(random);
        while numbers.len() > modules {
            numbers.remove(random.below(numbers.len()));
        }
        let modules = numbers.into_iter().map(|number| make_module(number, &widths, random)).collect();
        let mut plan =
            LoosePlan { wires: widths.iter().sum(), limit, buses: widths.into_iter().map(|width| (width, 0)).collect(), modules, time: 0 };
        plan.settle();
        plan
    }

    /// Gives every module about the most cycles with one capture cycle or with four; only one past the latter is not good.
    pub fn raise_cycles(&mut self, random: &mut Random) {
        let past = random.chance(30);
        for module in &mut self.modules {
            module.cycles = *random.pick(&[ONE_CAPTURE_CYCLES, ONE_CAPTURE_CYCLES + 1, limits::MODULE_CYCLES - 1, limits::MODULE_CYCLES]);
        }
        if past {
            let at = random.below(self.modules.len());
            self.modules[at].cycles = limits::MODULE_CYCLES + 1;
        }
        self.settle();
    }

    /// Makes busy figures, time and starts right again, as far as the buses exist; sums may pass 64 bits.
    pub fn settle(&mut self) {
        for (index, bus) in self.buses.iter_mut().enumerate() {
            let on_it = self.modules.iter().filter(|module| module.bus as usize == index + 1);
            bus.1 = on_it.fold(0, |sum: u64, module| sum.wrapping_add(module.cycles));
        }
        self.time = self.buses.iter().map(|bus| bus.1).max().unwrap_or(0);
        for at in 0..self.modules.len() {
            self.modules[at].start = self.summed(|other| self.runs_before(other, at));
        }
    }

    /// The cycles of some modules.
    fn summed(&self, chosen: impl Fn(usize) -> bool) -> u64 {
        let modules = self.modules.iter().enumerate().filter(|&(other, _)| chosen(other));
        modules.fold(0, |sum: u64, (_, module)| sum.wrapping_add(module.cycles))
    }

    fn runs_before(&self, other: usize, at: usize) -> bool {
        self.modules[other].bus == self.modules[at].bus && self.modules[other].number < self.modules[at].number
    }

    /// Breaks a rule, and half the time settles the sums so that they do not give it away.
    pub fn damage(&mut self, random: &mut Random) {
        match random.below(12) {
            0..=1 => self.damage_counts(random),
            2..=3 => self.damage_buses(random),
            4 => self.damage_sums(random),
            5..=6 => return self.damage_starts(random),
            _ => self.damage_module(random),
        }
        if random.chance(50) {
            self.settle();
        }
    }

    fn damage_counts(&mut self, random: &mut Random) {
        match random.below(6) {
            0 => self.wires = *random.pick(&[0, 1, 64, 65, 128, 255, 256]),
            1 => self.wires = step(self.wires, random),
            2 => self.limit = *random.pick(&[0, 1, 2, 3, 4, 7, 8, 9, 255]),
            3 => self.modules.clear(),
            4 => {
                // Behind 39 modules there is no number left.
                let extra = LooseModule { number: 39, bus: 1, wires: 1, cycles: 1, start: 0 };
                self.modules.push(extra);
            }
            _ => self.modules.truncate(random.below(self.modules.len() + 1)),
        }
    }

    fn damage_buses(&mut self, random: &mut Random) {
        let at = random.below(self.buses.len());
        match random.below(6) {
            0 => self.buses.swap(0, at),
            1 => self.buses[at].0 = step(self.buses[at].0, random),
            2 => {
                // The sum of the widths stays right.
                let last = self.buses.len() - 1;
                self.buses[at].0 = self.buses[at].0.wrapping_add(1);
                self.buses[last].0 = self.buses[last].0.wrapping_sub(1);
            }
            3 => self.buses.push((1, 0)),
            4 => self.buses.insert(0, (0, 0)),
            _ => {
                // W grows with the width, and may pass 64.
                let more = random.within(1, 64);
                let last = self.buses.len() - 1;
                self.buses[last].0 += more;
                self.wires += more;
            }
        }
    }

    fn damage_sums(&mut self, random: &mut Random) {
        let at = random.below(self.buses.len());
        match random.below(3) {
            0 => self.time = self.time.wrapping_add(*random.pick(&[1, u64::MAX, 256, 1 << 32, 1 << 63])),
            1 => self.buses[at].1 = self.buses[at].1.wrapping_add(*random.pick(&[1, u64::MAX, 256, 1 << 32, 1 << 63])),
            _ => {
                self.buses[at].1 = self.buses[at].1.wrapping_add(1);
                self.time = self.buses.iter().map(|bus| bus.1).max().unwrap_or(0);
            }
        }
    }

    /// Starts by another rule: with the module itself, over all buses, in the order reversed, all at once; or a single wrong start.
    fn damage_starts(&mut self, random: &mut Random) {
        let count = self.modules.len();
        let (at, other, rule) = (random.below(count), random.below(count), random.below(7));
        let starts: Vec<u64> = (0..count)
            .map(|at| match rule {
                0 => self.modules[at].start.wrapping_add(self.modules[at].cycles),
                1 => self.summed(|other| self.modules[other].number < self.modules[at].number),
                2 => self.summed(|other| self.runs_before(at, other)),
                3 => 0,
                _ => self.modules[at].start,
            })
            .collect();
        for (module, start) in self.modules.iter_mut().zip(starts) {
            module.start = start;
        }
        match rule {
            4 => self.modules[at].start = self.modules[other].start,
            5.. => self.modules[at].start = self.modules[at].start.wrapping_add(*random.pick(&[1, u64::MAX, 256, 1 << 32, 1 << 63])),
            _ => {}
        }
    }

    fn damage_module(&mut self, random: &mut Random) {
        let count = self.modules.len();
        if count == 0 {
            return;
        }
        let (at, other, buses) = (random.below(count), random.below(count), self.buses.len() as u32);
        let width = self.buses.get((self.modules[at].bus as usize).wrapping_sub(1)).map_or(1, |bus| bus.0);
        match random.below(9) {
            0 => self.modules[at].number = *random.pick(&[39, 40, 41, 255, 256]),
            // Before all others, so that the numbers still ascend.
            8 => self.modules[0].number = 0,
            1 => self.modules[at].number = self.modules[other].number,
            2 => self.modules.swap(at, other),
            3 => self.modules[at].bus = *random.pick(&[0, 1, buses, buses + 1, 255, 256]),
            4 => self.modules[at].wires = *random.pick(&[0, 1, width, width + 1, 64, 65, 256]),
            5 => self.modules[at].cycles = *random.pick(&[0, 1, limits::MODULE_CYCLES, limits::MODULE_CYCLES + 1]),
            6 => self.modules[at].cycles = *random.pick(&[u64::MAX, 1 << 63, u64::MAX - limits::MODULE_CYCLES]),
            _ => {
                // Two figures too large whose sum passes 64 bits and comes out small.
                self.modules[at].cycles = 1 << 63;
                self.modules[other].cycles = (1 << 63) + 5;
                self.settle();
            }
        }
    }

    /// The record: counts as they are, places as far as they go.
    pub fn record(&self) -> Vec<u8> {
        let mut bytes = Vec::new();
        for number in [self.wires, self.limit, self.buses.len() as u32, self.modules.len() as u32] {
            bytes.extend_from_slice(&number.to_le_bytes());
        }
        bytes.extend_from_slice(&self.time.to_le_bytes());
        for (width, busy) in self.buses.iter().take(limits::BUSES) {
            bytes.extend_from_slice(&width.to_le_bytes());
            bytes.extend_from_slice(&busy.to_le_bytes());
        }
        bytes.resize(places::plan::MODULES, 0);
        for module in self.modules.iter().take(limits::PLANNED) {
            for number in [module.number, module.bus, module.wires] {
                bytes.extend_from_slice(&number.to_le_bytes());
            }
            bytes.extend_from_slice(&module.cycles.to_le_bytes());
            bytes.extend_from_slice(&module.start.to_le_bytes());
        }
        bytes.resize(PLAN_BYTES, 0);
        bytes
    }

    /// The file, with every bus and module there is; numbers too large for their byte lose their front.
    pub fn file(&self) -> Vec<u8> {
        self.file_with(|module| module.start.to_le_bytes().to_vec())
    }

    /// The file as it was before starts stood in it.
    pub fn old_file(&self) -> Vec<u8> {
        self.file_with(|_| Vec::new())
    }

    fn file_with(&self, start: impl Fn(&LooseModule) -> Vec<u8>) -> Vec<u8> {
        let mut bytes = Vec::new();
        for module in &self.modules {
            bytes.extend_from_slice(&[module.number as u8, module.bus as u8, module.wires as u8, 0]);
            bytes.extend_from_slice(&module.cycles.to_le_bytes());
            bytes.extend_from_slice(&start(module));
        }
        let bus_offset = bytes.len() as u16;
        for (width, busy) in &self.buses {
            bytes.extend_from_slice(&[*width as u8, 0, 0, 0]);
            bytes.extend_from_slice(&busy.to_le_bytes());
        }
        bytes.extend_from_slice(&[0, 0]);
        bytes.extend_from_slice(&bus_offset.to_le_bytes());
        bytes.extend_from_slice(&[self.wires as u8, self.limit as u8, self.buses.len() as u8, self.modules.len() as u8]);
        bytes.extend_from_slice(&self.time.to_le_bytes());
        bytes
    }
}

/// Mostly no more than the first planner takes, now and then as many as there can be.
fn make_module_count(random: &mut Random) -> usize {
    match random.below(10) {
        0 => limits::PLANNED,
        1..=2 => 1 + random.below(limits::PLANNED),
        _ => 1 + random.below(limits::FIRST_PLANNER_PLANNED),
    }
}

/// Non-decreasing widths that sum to 64 at most.
fn make_widths(count: u32, random: &mut Random) -> Vec<u32> {
    let most = (*random.pick(&[1, 2, 5, 21])).min(limits::WIRES / count);
    let mut widths: Vec<u32> = (0..count).map(|_| random.within(1, most)).collect();
    widths.sort_unstable();
    if random.chance(20) {
        let others: u32 = widths[1..].iter().sum();
        widths.rotate_left(1);
        widths[count as usize - 1] = limits::WIRES - others;
    }
    widths
}

fn make_module(number: u32, widths: &[u32], random: &mut Random) -> LooseModule {
    let bus = random.within(1, widths.len() as u32);
    let wires = random.within(1, widths[bus as usize - 1]);
    let cycles = match random.below(10) {
        0 => limits::MODULE_CYCLES,
        1 => 1,
        _ => 1 + random.bits() % limits::MODULE_CYCLES,
    };
    LooseModule { number, bus, wires, cycles, start: 0 }
}

fn step(number: u32, random: &mut Random) -> u32 {
    number.wrapping_add(*random.pick(&[1, u32::MAX]))
}
