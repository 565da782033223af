//! The payload sizes of Device Control, bits 5 to 7 and 12 to 14, kept wrongly (document 02, f).

use trials::blocks::{self, DEVICE_CONTROL, PAYLOAD_SIZES};
use trials::call::Call;
use trials::exhaustive::registers;
use trials::given::{Given, Handed};
use trials::service::{Pair, Service};

use crate::wrong::{Wrong, found, pair, short_names};

const LINK_CONTROL: usize = 5;

/// What was computed, with these bits as they were.
pub fn kept(bits: u32, current: u32, computed: u32) -> u32 {
    (computed & !bits) | (current & bits)
}

/// The reference with another rule for one register, of its current value and its masks.
fn revalued(
    wrong: &mut Wrong,
    call: &mut Call,
    register: usize,
    rule: fn(current: u32, and_mask: u32, or_mask: u32) -> u32,
) -> Given {
    let mut given = wrong.reference.call(call);
    if let (0, Call::RegisterValues(asked), Handed::Values(values)) =
        (given.number, call, &mut given.handed)
    {
        let (slot, bridge_block) = (asked.slot.lent(), asked.bridge_block.lent());
        let [and_mask, or_mask] = blocks::masks(slot, bridge_block, register);
        values[register] = rule(asked.current.lent()[register], and_mask, or_mask);
    }
    given
}

fn keeps_sizes(current: u32, and_mask: u32, or_mask: u32) -> u32 {
    kept(PAYLOAD_SIZES, current, (current & and_mask) | or_mask)
}

#[test]
fn the_rule_holds_of_every_bit() {
    let make = || pair(|wrong, call| revalued(wrong, call, DEVICE_CONTROL, keeps_sizes));
    registers::bits(make).unwrap();
}

/// The wrong rule is found among every bit of every register, and by a short list of random calls.
fn is_found(make: fn() -> Pair) {
    assert!(registers::bits(make).is_err());
    let found = found(make);
    assert_eq!(short_names(&found), ["start", "osc", "register_values"]);
}

fn keeps_nothing(current: u32, and_mask: u32, or_mask: u32) -> u32 {
    (current & and_mask) | or_mask
}

#[test]
fn sizes_changed_by_the_record() {
    is_found(|| pair(|wrong, call| revalued(wrong, call, DEVICE_CONTROL, keeps_nothing)));
}

fn keeps_before_the_or(current: u32, and_mask: u32, or_mask: u32) -> u32 {
    kept(PAYLOAD_SIZES, current, current & and_mask) | or_mask
}

#[test]
fn sizes_kept_before_the_or() {
    is_found(|| pair(|wrong, call| revalued(wrong, call, DEVICE_CONTROL, keeps_before_the_or)));
}

#[test]
fn sizes_kept_in_link_control_too() {
    is_found(|| pair(|wrong, call| revalued(wrong, call, LINK_CONTROL, keeps_sizes)));
}

fn one_bit_wrong<const BIT: u32>() -> Pair {
    pair(|wrong, call| {
        revalued(wrong, call, DEVICE_CONTROL, |current, and_mask, or_mask| {
            let bits = PAYLOAD_SIZES ^ (1 << BIT);
            kept(bits, current, (current & and_mask) | or_mask)
        })
    })
}

const ONE_BIT_WRONG: [fn() -> Pair; 16] = [
    one_bit_wrong::<0>,
    one_bit_wrong::<1>,
    one_bit_wrong::<2>,
    one_bit_wrong::<3>,
    one_bit_wrong::<4>,
    one_bit_wrong::<5>,
    one_bit_wrong::<6>,
    one_bit_wrong::<7>,
    one_bit_wrong::<8>,
    one_bit_wrong::<9>,
    one_bit_wrong::<10>,
    one_bit_wrong::<11>,
    one_bit_wrong::<12>,
    one_bit_wrong::<13>,
    one_bit_wrong::<14>,
    one_bit_wrong::<15>,
];

#[test]
fn one_bit_more_or_fewer_kept() {
    for (bit, make) in ONE_BIT_WRONG.into_iter().enumerate() {
        assert!(registers::bits(make).is_err(), "{bit}");
    }
}
