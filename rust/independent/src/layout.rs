//! The wrapper rule: which wrapper chain each internal chain and each cell goes to.

use crate::limits;
use crate::soc::{Module, Test};
use crate::units::{FlipFlops, Wires};

/// Entries past the width or the chains, and of internal chains that the test does not use, are 0.
#[derive(Clone, Debug, PartialEq, Eq)]
pub struct Layout {
    pub flip_flops: [FlipFlops; limits::CHAINS],
    pub input_cells: [u32; limits::CHAINS],
    pub output_cells: [u32; limits::CHAINS],
    /// A bidirectional cell counts in both scan-in and scan-out of its chain.
    pub bidir_cells: [u32; limits::CHAINS],
    /// The wrapper chain, from 1, of each internal chain.
    pub wrapper_chains: [u32; limits::CHAINS],
}

impl Layout {
    pub fn scan_in(&self) -> FlipFlops {
        longest(&self.with_bidirs(), &self.input_cells)
    }

    pub fn scan_out(&self) -> FlipFlops {
        longest(&self.with_bidirs(), &self.output_cells)
    }

    fn with_bidirs(&self) -> [FlipFlops; limits::CHAINS] {
        with_cells(self.flip_flops, &self.bidir_cells)
    }
}

fn with_cells(mut lengths: [FlipFlops; limits::CHAINS], cells: &[u32]) -> [FlipFlops; limits::CHAINS] {
    for (length, &cells) in lengths.iter_mut().zip(cells) {
        *length = *length + FlipFlops(cells);
    }
    lengths
}

fn longest(lengths: &[FlipFlops; limits::CHAINS], cells: &[u32]) -> FlipFlops {
    with_cells(*lengths, cells).into_iter().max().unwrap_or_default()
}

/// The layout of a good module for one of its tests.
pub fn layout(module: &Module, test: &Test, width: Wires) -> Layout {
    layout_for(module, test.scan_use, width)
}

/// Tests with the same ScanUse have the same layout.
pub fn layout_for(module: &Module, scan_use: bool, width: Wires) -> Layout {
    let width = width.0 as usize;
    let mut flip_flops = [FlipFlops(0); limits::CHAINS];
    let mut wrapper_chains = [0; limits::CHAINS];
    let used = if scan_use { module.chains() } else { &[] };
    for chain in longest_first(used) {
        let place = place_for(used[chain], &flip_flops[..width]);
        flip_flops[place] = flip_flops[place] + used[chain];
        wrapper_chains[chain] = place as u32 + 1;
    }
    // Bidirectional cells come right after the internal chains; input cells and output cells then start from these lengths.
    let bidir_cells = add_cells(&flip_flops[..width], module.bidirs);
    let lengths = with_cells(flip_flops, &bidir_cells);
    Layout {
        flip_flops,
        input_cells: add_cells(&lengths[..width], module.inputs),
        output_cells: add_cells(&lengths[..width], module.outputs),
        bidir_cells,
        wrapper_chains,
    }
}

fn longest_first(lengths: &[FlipFlops]) -> Vec<usize> {
    let mut order: Vec<usize> = (0..lengths.len()).collect();
    // The sort is stable, so equal chains stay in file order.
    order.sort_by(|&one, &other| lengths[other].cmp(&lengths[one]));
    order
}

/// The chain that becomes fullest without passing the longest of this moment, else the shortest; the first of equals.
fn place_for(length: FlipFlops, lengths: &[FlipFlops]) -> usize {
    let longest = lengths.iter().copied().max().unwrap_or_default();
    let mut fullest: Option<usize> = None;
    let mut shortest = 0;
    for (place, &filled) in lengths.iter().enumerate() {
        if filled + length <= longest && fullest.is_none_or(|so_far| filled > lengths[so_far]) {
            fullest = Some(place);
        }
        if filled < lengths[shortest] {
            shortest = place;
        }
    }
    fullest.unwrap_or(shortest)
}

/// The cells on each chain when cells of length 1 are added by the same rule.
///
/// A cell makes its chain fuller, so the next one follows it there until the chain is as long as the longest: chains are topped up one
/// after another, the fullest first. When all are equally long, the cells go round from the first chain.
fn add_cells(lengths: &[FlipFlops], cells: u32) -> [u32; limits::CHAINS] {
    let mut added = [0; limits::CHAINS];
    let mut left = cells;
    let longest = lengths.iter().copied().max().unwrap_or_default();
    for chain in longest_first(lengths) {
        let taken = left.min(longest.0 - lengths[chain].0);
        added[chain] = taken;
        left -= taken;
    }
    let width = lengths.len() as u32;
    for (chain, added) in added[..lengths.len()].iter_mut().enumerate() {
        *added += left / width + u32::from((chain as u32) < left % width);
    }
    added
}

#[cfg(test)]
mod tests {
    use super::*;

    /// The rule to the letter: each cell is an element of length 1.
    fn one_by_one(lengths: &[FlipFlops], cells: u32) -> [u32; limits::CHAINS] {
        let mut filled = lengths.to_vec();
        let mut added = [0; limits::CHAINS];
        for _ in 0..cells {
            let place = place_for(FlipFlops(1), &filled);
            filled[place] = filled[place] + FlipFlops(1);
            added[place] += 1;
        }
        added
    }

    #[test]
    fn cells_added_at_once_are_cells_added_one_by_one() {
        let lists: [&[u32]; 8] =
            [&[0], &[0, 0, 0], &[5], &[5, 5], &[3, 7, 3, 6], &[1, 2, 3, 4, 5], &[9, 9, 2, 2, 9, 8, 8, 0], &[0, 4096, 17, 4095]];
        for lengths in lists {
            let lengths: Vec<FlipFlops> = lengths.iter().map(|&length| FlipFlops(length)).collect();
            for cells in (0..60).chain([8190, 8191, 8192, 16382]) {
                assert_eq!(add_cells(&lengths, cells), one_by_one(&lengths, cells), "{lengths:?} {cells}");
            }
        }
    }
}
