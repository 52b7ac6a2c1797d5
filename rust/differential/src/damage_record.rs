//! Records and plan files made wrong in one place or in their length.

use tallowwing_library::places::{module, soc, test};

use crate::random::Random;

/// Numbers at the limits of a record's places, on either side.
const NUMBERS: &[u32] = &[
    0,
    1,
    2,
    3,
    4,
    8,
    9,
    12,
    13,
    32,
    33,
    39,
    40,
    41,
    63,
    64,
    65,
    4_095,
    4_096,
    4_097,
    8_191,
    8_192,
    1_000_000,
    1_000_001,
    16_777_215,
    16_777_216,
    0x7FFF_FFFF,
    0x8000_0000,
    0xFFFF_FFFE,
    0xFFFF_FFFF,
];

/// Numbers of a module that stand alone.
const SINGLE: [usize; 8] =
    [module::LEVEL, module::INPUTS, module::OUTPUTS, module::BIDIRS, module::CHAIN_COUNT, module::X, module::Y, module::TEST_COUNT];

/// A SOC record with one place changed, or of another length.
pub fn damage_soc(record: &mut Vec<u8>, random: &mut Random) {
    if random.chance(10) {
        return change_length(record, random);
    }
    let at = soc_place(record, random);
    damage_at(record, at, random);
}

/// The offset of a place: the head, a module that is there, a flag, or any.
fn soc_place(record: &[u8], random: &mut Random) -> usize {
    let modules = usize::from(record[soc::MODULE_COUNT]);
    let front = soc::module(random.below(modules.clamp(1, soc::MODULES)));
    match random.below(10) {
        0..=1 => 4 * random.below(soc::HEAD_BYTES / 4),
        2..=3 => front + *random.pick(&SINGLE),
        4 => front + module::LENGTHS + 4 * random.below((module::X - module::LENGTHS) / 4),
        5..=6 => front + module::TESTS + 4 * random.below((module::BYTES - module::TESTS) / 4),
        7 => front + module::test(1 + random.below(8)) + *random.pick(&[test::SCAN_USE, test::TAM_USE]),
        8 => front + 4 * random.below(module::BYTES / 4),
        _ => 4 * random.below(record.len() / 4),
    }
}

/// Bytes of a plan record or file with one place changed, or of another length.
pub fn damage_any(bytes: &mut Vec<u8>, random: &mut Random) {
    if random.chance(20) || bytes.len() < 4 {
        return change_length(bytes, random);
    }
    let at = random.below(bytes.len() - 3);
    damage_at(bytes, at, random);
}

fn damage_at(bytes: &mut [u8], at: usize, random: &mut Random) {
    let place: &mut [u8] = &mut bytes[at..at + 4];
    match random.below(4) {
        0 => place[random.below(4)] ^= 1 << random.below(8),
        1 => place[random.below(4)] = random.byte(),
        2 => {
            let number = u32::from_le_bytes([place[0], place[1], place[2], place[3]]);
            place.copy_from_slice(&number.wrapping_add(*random.pick(&[1, u32::MAX])).to_le_bytes());
        }
        _ => place.copy_from_slice(&random.pick(NUMBERS).to_le_bytes()),
    }
}

fn change_length(bytes: &mut Vec<u8>, random: &mut Random) {
    let length = bytes.len();
    match random.below(6) {
        0 => bytes.clear(),
        1 => bytes.truncate(length.saturating_sub(1)),
        2 => bytes.push(0),
        3 => bytes.truncate(random.below(length + 1)),
        4 => bytes.extend_from_within(..length.min(12)),
        _ => drop(bytes.drain(..random.below(length + 1))),
    }
}
