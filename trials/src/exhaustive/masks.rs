//! Pairs of masks: each bit of each register as every pair can have it, searched, used and written.

use std::array;

use super::Bench;
use super::blocks::{CONTROLS, OWNER, started};
use crate::blocks::{self, REGISTER_LIMITS, REGISTERS};
use crate::call::{FindRecord, RegisterValues, WriteRecords};
use crate::service::Pair;
use crate::settings::Settings;

/// What a bit is in the AND mask and in the OR mask.
pub type State = [bool; 2];

/// ACPI's three cases: a bit that is cleared, one that is kept, one that is set.
pub const CASES: [State; 3] = [[false, false], [true, false], [true, true]];
const SENSELESS: State = [false, true];

/// The masks of all registers, with one bit of one register in this state, and all other bits in another.
pub fn masks(others: State, register: usize, bit: u32, state: State) -> [u32; 2 * REGISTERS] {
    let all = |index| {
        if others[index % 2] {
            REGISTER_LIMITS[index]
        } else {
            0
        }
    };
    let mut masks = array::from_fn(all);
    for (mask, set) in masks[2 * register..].iter_mut().zip(state) {
        put(mask, bit, set);
    }
    masks
}

/// Sets or clears a bit.
pub fn put(number: &mut u32, bit: u32, set: bool) {
    *number &= !(1 << bit);
    *number |= u32::from(set) << bit;
}

/// Each register with each of its bits.
pub fn bits_of_registers() -> impl Iterator<Item = (usize, u32)> {
    (0..REGISTERS).flat_map(|register| {
        let bits = 0..REGISTER_LIMITS[2 * register].count_ones();
        bits.map(move |bit| (register, bit))
    })
}

pub fn pairs(make: fn() -> Pair) -> Result<u64, String> {
    let mut bench = started(make)?;
    for (register, bit) in bits_of_registers() {
        for others in CASES {
            for state in CASES {
                check(&mut bench, &masks(others, register, bit, state), false)?;
            }
            check(&mut bench, &masks(others, register, bit, SENSELESS), true)?;
        }
    }
    Ok(bench.count)
}

fn check(bench: &mut Bench, masks: &[u32], senseless: bool) -> Result<(), String> {
    let [found, written, too_short] = if senseless { [8, 14, 14] } else { [0, 0, 15] };
    check_block(bench, masks, 1, [found, found])?;
    check_block(bench, masks, 2, [0, 9])?;
    let mut settings = Settings::default();
    settings.put(0, &[0; 4]);
    settings.put(2, masks);
    let bytes = settings.bytes();
    check_write(bench, settings, bytes, written)?;
    check_write(bench, settings, bytes - 1, too_short)?;
    settings.flags[2] = 0;
    check_write(bench, settings, bytes, 0)
}

/// Searches for types 0 and 2, and register values without AER and with it, in a block with a record of each. The numbers are that of
/// the first search, and of all others.
fn check_block(
    bench: &mut Bench,
    masks: &[u32],
    revision: u32,
    [other_type, number]: [u8; 2],
) -> Result<(), String> {
    let record = blocks::numbers_field(2, revision, masks);
    let block = [blocks::numbers_field(0, 1, &[0; 4]), record].concat();
    for (record_type, number) in [(0, other_type), (2, number)] {
        let search = FindRecord {
            slot: block.clone().into(),
            bridge_block: Vec::new().into(),
            record_type,
        };
        bench.expect(search, number)?;
    }
    for bridge in 0..CONTROLS.len() as u8 {
        let values = RegisterValues {
            session: OWNER,
            bridge,
            slot: block.clone().into(),
            bridge_block: Vec::new().into(),
            current: vec![0; REGISTERS].into(),
        };
        bench.expect(values, number)?;
    }
    Ok(())
}

fn check_write(
    bench: &mut Bench,
    settings: Settings,
    room: usize,
    number: u8,
) -> Result<(), String> {
    let buffer = vec![0xEE; room].into();
    bench.expect(WriteRecords { settings, buffer }, number)
}
