//! Small SOCs, and their best plans by listing every plan there is.

use independent::plan::Plan;
use independent::planner::width_lists;
use independent::soc::Soc;
use independent::time::module_time;
use independent::units::Wires;

use super::{soc, MODULE_0};

/// Widths, buses from 1, and the time of the first plan of least time, by listing all plans in their order.
pub fn by_listing_all(soc: &Soc, wires: u32, limit: u32, capture: u32) -> (Vec<u32>, Vec<u32>, u64) {
    let planned: Vec<u32> = (0..soc.module_count).filter(|&m| soc.modules[m as usize].planned()).collect();
    let mut best: Option<(Vec<u32>, Vec<u32>, u64)> = None;
    for count in 1..=limit.min(wires) {
        for widths in width_lists(count, Wires(wires)) {
            for code in 0..u64::from(count).pow(planned.len() as u32) {
                let buses = digits(code, u64::from(count), planned.len());
                let mut busy = vec![0; count as usize];
                for (&module, &bus) in planned.iter().zip(&buses) {
                    busy[bus] += module_time(soc, module, widths[bus].0, capture).unwrap().cycles.0;
                }
                let time = *busy.iter().max().unwrap();
                if best.as_ref().is_none_or(|best| time < best.2) {
                    best = Some((widths.iter().map(|width| width.0).collect(), buses.iter().map(|&bus| bus as u32 + 1).collect(), time));
                }
            }
        }
    }
    best.unwrap()
}

/// The lowest module is the leading digit, so counting up goes through the assignments in the order of plans.
fn digits(mut code: u64, base: u64, length: usize) -> Vec<usize> {
    let mut digits = vec![0; length];
    for digit in digits.iter_mut().rev() {
        *digit = (code % base) as usize;
        code /= base;
    }
    digits
}

pub fn choice(plan: &Plan) -> (Vec<u32>, Vec<u32>, u64) {
    let widths = plan.buses().iter().map(|bus| bus.width.0).collect();
    let buses = plan.modules().iter().map(|module| module.bus).collect();
    (widths, buses, plan.time.0)
}

/// A plain congruential generator: the cases only have to differ.
pub struct Random(pub u64);

impl Random {
    pub fn below(&mut self, bound: u64) -> u64 {
        self.0 = self.0.wrapping_mul(6_364_136_223_846_793_005).wrapping_add(1_442_695_040_888_963_407);
        (self.0 >> 33) % bound
    }
}

pub fn random_soc(random: &mut Random) -> Soc {
    let count = 1 + random.below(5);
    let mut text = format!("SocName r\nTotalModules {}\nOptions Power 0 XY 0\n{MODULE_0}", count + 1);
    for m in 1..=count {
        let chains: Vec<String> = (0..random.below(5)).map(|_| (1 + random.below(6)).to_string()).collect();
        let (inputs, outputs) = (random.below(5), random.below(5));
        text +=
            &format!("Module {m} Level 1 Inputs {inputs} Outputs {outputs} Bidirs 0 ScanChains {} : {}\n", chains.len(), chains.join(" "));
        text += &format!("Module {m} TotalTests 1\nModule {m} Test 1 ScanUse 1 TamUse 1 Patterns {}\n", 1 + random.below(4));
    }
    soc(&text)
}
