//! Register values, bit by bit.

use std::array;

use super::Bench;
use super::blocks::{CONTROLS, OWNER, started};
use super::masks::{self, CASES};
use crate::blocks::{self, REGISTER_LIMITS};
use crate::call::RegisterValues;
use crate::service::Pair;

/// Every bit of every register cleared, kept or set, where it is 0 and where it is 1, with all other bits cleared, kept or set, 0 or 1.
pub fn bits(make: fn() -> Pair) -> Result<u64, String> {
    let mut bench = started(make)?;
    for (register, bit) in masks::bits_of_registers() {
        for others in CASES {
            for case in CASES {
                let masks = masks::masks(others, register, bit, case);
                for before in [[false, false], [false, true], [true, false], [true, true]] {
                    check(&mut bench, &masks, current(register, bit, before))?;
                }
            }
        }
    }
    Ok(bench.count)
}

/// The current values, with one bit of one register so, and all other bits so.
fn current(register: usize, bit: u32, [value, others]: [bool; 2]) -> [u32; 8] {
    let all = |register: usize| {
        if others {
            REGISTER_LIMITS[2 * register]
        } else {
            0
        }
    };
    let mut current = array::from_fn(all);
    masks::put(&mut current[register], bit, value);
    current
}

/// Each is done.
fn check(bench: &mut Bench, masks: &[u32], current: [u32; 8]) -> Result<(), String> {
    for bridge in 0..CONTROLS.len() as u8 {
        let values = RegisterValues {
            session: OWNER,
            bridge,
            slot: Vec::new().into(),
            bridge_block: blocks::numbers_field(2, 1, masks).into(),
            current: current.to_vec().into(),
        };
        bench.expect(values, 0)?;
    }
    Ok(())
}
