//! Programs that drop upper bits of a number, and one that takes an unknown kind for a known one.

use trials::call::{Address, Call};
use trials::given::Given;
use trials::row::CONVENTIONAL;
use trials::service::{Pair, Service};

use crate::wrong::{Wrong, found, found_exhaustively, pair, short_names};

/// The reference, asked for another place.
fn asked(wrong: &mut Wrong, call: &mut Call, change: fn(&mut Address)) -> Given {
    let Call::Address(address) = call else {
        return wrong.reference.call(call);
    };
    let mut changed = address.clone();
    change(&mut changed);
    wrong.reference.call(&mut changed.into())
}

/// The simplest place that shows the wrong rule; the exhaustive comparisons find it too.
fn found_place(make: fn() -> Pair) -> Address {
    let found = found(make);
    assert_eq!(short_names(&found), ["start", "address"]);
    let why = found_exhaustively(make);
    assert!(why.contains("call 1: address"), "{why}");
    match found.list.last() {
        Some(Call::Address(address)) => address.clone(),
        _ => panic!("{}", found.report()),
    }
}

#[test]
fn a_bus_narrowed_to_a_byte() {
    let place = found_place(|| pair(|wrong, call| asked(wrong, call, |at| at.bus &= 0xFF)));
    assert_eq!(place.bus, 256);
}

#[test]
fn a_device_narrowed_to_a_byte() {
    let place = found_place(|| pair(|wrong, call| asked(wrong, call, |at| at.device &= 0xFF)));
    assert_eq!(place.device, 256);
}

#[test]
fn a_function_narrowed_to_a_byte() {
    let place = found_place(|| pair(|wrong, call| asked(wrong, call, |at| at.function &= 0xFF)));
    assert_eq!(place.function, 256);
}

#[test]
fn an_offset_narrowed_to_16_bits() {
    let place = found_place(|| pair(|wrong, call| asked(wrong, call, |at| at.offset &= 0xFFFF)));
    assert_eq!(place.offset, 0x1_0000);
}

#[test]
fn a_width_narrowed_to_a_byte() {
    let place = found_place(|| pair(|wrong, call| asked(wrong, call, |at| at.width &= 0xFF)));
    assert_eq!(place.width, 257);
}

fn narrows_record_type(wrong: &mut Wrong, call: &mut Call) -> Given {
    let Call::FindRecord(search) = call else {
        return wrong.reference.call(call);
    };
    let mut changed = search.clone();
    changed.record_type &= 0xFF;
    wrong.reference.call(&mut changed.into())
}

#[test]
fn a_record_type_narrowed_to_a_byte() {
    let found = found(|| pair(narrows_record_type));
    let [Call::FindRecord(search)] = &found.list[..] else {
        panic!("{}", found.report());
    };
    assert!(matches!(search.record_type, 0x100..=0x102));
    let why = found_exhaustively(|| pair(narrows_record_type));
    assert!(why.contains("call 0: find_record"), "{why}");
}

fn takes_kind_2_as_conventional(wrong: &mut Wrong, call: &mut Call) -> Given {
    let Call::Start(start) = call else {
        return wrong.reference.call(call);
    };
    let mut changed = start.clone();
    for row in changed.rows.lent_mut() {
        if row.kind == 2 {
            row.kind = CONVENTIONAL;
        }
    }
    wrong.reference.call(&mut changed.into())
}

#[test]
fn kind_2_taken_as_conventional() {
    let found = found(|| pair(takes_kind_2_as_conventional));
    assert_eq!(short_names(&found), ["start"]);
    let why = found_exhaustively(|| pair(takes_kind_2_as_conventional));
    assert!(why.contains("kind 0x2"), "{why}");
}
