//! Every line of "Errors we have seen".

use crate::build::*;
use reference::{Holding, Masks, Refusal, find_record};

#[test]
fn start_bus_is_not_subtracted() {
    let table = start(&[(BASE, 0, 0x40, 0x7F)], &[row(0x41, 0x7F, 0)]).unwrap();
    let address = table.address(OWNER, BRIDGE, 0x41, 0, 0, 0, 4);
    assert_eq!(address, Ok(BASE + 0x410_0000));
    assert_eq!(table.locate(OWNER, BASE + 0x410_0000).unwrap().bus, 0x41);
}

#[test]
fn uuid_in_printed_order_is_unknown() {
    let mut table = one_bridge(0x1F);
    let printed = [
        0x33, 0xDB, 0x4D, 0x5B, 0x1F, 0xF7, 0x40, 0x1C, 0x96, 0x57, 0x74, 0x41, 0xC0, 0x3D, 0xD7,
        0x66,
    ];
    let capabilities = dwords(&[0, 0x1F, 0x1F]);
    assert_eq!(osc_call(&mut table, 1, &printed, &capabilities), [4, 0, 0]);
    assert_eq!(held(&table), 0);
}

#[test]
fn held_bit_left_out_later_stays() {
    let mut table = holding(0x1F, 0x1D);
    assert_eq!(osc(&mut table, 0, 0, 0x02), [0, 0, 0x02]);
    assert_eq!(held(&table), 0x1F);
}

#[test]
fn forbidden_bit_4_gives_no_bit_0() {
    let mut table = one_bridge(0x0F);
    assert_eq!(osc(&mut table, 0, 0, 0x11), [0x10, 0, 0]);
    assert_eq!(held(&table), 0);
}

#[test]
fn query_changes_nothing() {
    let mut table = one_bridge(0x1F);
    let before = format!("{table:?}");
    assert_eq!(osc(&mut table, 1, 0x1F, 0x1F), [0, 0x1F, 0x1F]);
    assert_eq!(format!("{table:?}"), before);
    assert_eq!(osc(&mut table, 0, 0x1F, 0x1F), [0, 0x1F, 0x1F]);
    let taken = Holding {
        held: 0x1F,
        supported: 0x1F,
    };
    assert_eq!(table.report(OWNER, BRIDGE), Ok(taken));
}

/// Of the formula by itself: the masks of a sound block give the same in either order (document 02, h).
#[test]
fn and_comes_before_or() {
    let masks = Masks {
        and: 0x00F0,
        or: 0x0F0F,
    };
    assert_eq!(masks.new_value(0x1234), 0x0F3F);
}

#[test]
fn slot_alone_decides() {
    let slot = pci();
    let bridge_block = pci_x();
    let found = |record_type| find_record(&slot, &bridge_block, record_type);
    assert_eq!(found(0), Ok(&slot[..]));
    assert_eq!(found(1), Err(Refusal::NoRecord));
    assert_eq!(find_record(&[], &bridge_block, 1), Ok(&bridge_block[..]));
    let unsound = field(0, &[]);
    let refused = find_record(&unsound, &bridge_block, 1);
    assert_eq!(refused, Err(Refusal::RecordBlock));
    assert_eq!(find_record(&slot, &unsound, 0), Ok(&slot[..]));
}
