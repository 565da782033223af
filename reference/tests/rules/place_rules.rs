//! Places and addresses.

use crate::build::*;
use reference::{BridgeNumber, Place, Refusal, Table};

/// The last 256 MiB of the address space.
const TOP: u64 = 0xFFFF_FFFF_F000_0000;

#[test]
fn place_exactly_when() {
    let table = start(&[(BASE, 0, 0, 255)], &[row(2, 5, 0)]).unwrap();
    let at = |bus, device, function, offset, width| {
        let address = table.address(OWNER, BRIDGE, bus, device, function, offset, width);
        address.map_err(Refusal::number)
    };
    assert_eq!(at(2, 31, 7, 4095, 1), Ok(BASE + 0x2F_FFFF));
    assert_eq!(at(5, 31, 7, 4094, 2), Ok(BASE + 0x5F_FFFE));
    assert_eq!(at(2, 32, 0, 0, 1), Err(5));
    assert_eq!(at(2, 0, 8, 0, 1), Err(5));
    assert_eq!(at(2, 0, 0, 4096, 1), Err(5));
    assert_eq!(at(2, 0, 0, 65535, 1), Err(5));
    assert_eq!(at(2, 0, 0, 2, 4), Err(5));
    assert_eq!(at(2, 0, 0, 1, 2), Err(5));
    for width in (0..=255).filter(|width| ![1, 2, 4].contains(width)) {
        assert_eq!(at(2, 0, 0, 0, width), Err(5));
    }
    assert_eq!(at(1, 0, 0, 0, 4), Err(4));
    assert_eq!(at(6, 0, 0, 0, 4), Err(4));
}

/// Each number is sound once its upper bits are lost, or stands just above its limit.
#[test]
fn numbers_are_compared_whole() {
    let table = one_bridge(0);
    let at = |bus, device, function, offset, width| {
        let address = table.address(OWNER, BRIDGE, bus, device, function, offset, width);
        address.map_err(Refusal::number)
    };
    assert_eq!(at(255, 31, 7, 0xFFC, 4), Ok(BASE + 0xFFF_FFFC));
    for bus in [256, 257, 0x1_0001, u32::MAX] {
        assert_eq!(at(bus, 2, 3, 0x10, 4), Err(4));
    }
    for device in [32, 256, 258, 0x1_0002, u32::MAX] {
        assert_eq!(at(1, device, 3, 0x10, 4), Err(5));
    }
    for function in [8, 256, 259, 0x1_0003, u32::MAX] {
        assert_eq!(at(1, 2, function, 0x10, 4), Err(5));
    }
    for offset in [4096, 65536, 65552, 0x8000_0010, u32::MAX] {
        assert_eq!(at(1, 2, 3, offset, 1), Err(5));
    }
    for width in [0, 3, 256, 257, 260, 0x1_0004, u32::MAX] {
        assert_eq!(at(1, 2, 3, 0x10, width), Err(5));
    }
}

/// A place read back and asked for again.
fn there_and_back(table: &Table, address: u64) -> Place {
    let place = table.locate(OWNER, address).unwrap();
    let Place {
        bridge,
        bus,
        device,
        function,
        offset,
    } = place;
    let [bus, device, function] = [bus, device, function].map(u32::from);
    let again = table.address(OWNER, bridge, bus, device, function, offset.into(), 1);
    assert_eq!(again, Ok(address));
    place
}

#[test]
fn read_back_at_the_edges() {
    let table = start(&[(BASE, 0, 0, 255)], &[row(2, 3, 0), row(6, 6, 0)]).unwrap();
    let bus = |bus: u64| BASE + (bus << 20);
    for outside in [0, BASE, bus(2) - 1, bus(4), bus(6) - 1, bus(7), u64::MAX] {
        assert_eq!(table.locate(OWNER, outside), Err(Refusal::NoSuchBus));
    }
    for (inside, bridge) in [(bus(2), 0), (bus(4) - 1, 0), (bus(6), 1), (bus(7) - 1, 1)] {
        assert_eq!(there_and_back(&table, inside).bridge, BridgeNumber(bridge));
        assert_eq!(table.locate(STRANGER, inside), Err(Refusal::NoSuchBus));
    }
    let place = there_and_back(&table, bus(3) + 0x11_3ABC - 0x10_0000);
    let expect = Place {
        bridge: BridgeNumber(0),
        bus: 3,
        device: 2,
        function: 3,
        offset: 0xABC,
    };
    assert_eq!(place, expect);
}

#[test]
fn window_that_ends_at_2_to_64() {
    let table = start(&[(TOP, 0, 0, 255)], &[row(0, 255, 0)]).unwrap();
    let last = table.address(OWNER, BRIDGE, 255, 31, 7, 4092, 4);
    assert_eq!(last, Ok(u64::MAX - 3));
    assert_eq!(there_and_back(&table, u64::MAX).offset, 4095);
    assert_eq!(there_and_back(&table, TOP).bus, 0);
    assert_eq!(table.locate(OWNER, TOP - 1), Err(Refusal::NoSuchBus));
    assert_eq!(table.locate(OWNER, 0), Err(Refusal::NoSuchBus));
}

#[test]
fn empty_table_has_no_place() {
    let table = Table::empty();
    assert!(table.is_empty());
    assert_eq!(table.locate(OWNER, 0), Err(Refusal::NoSuchBus));
    let address = table.address(OWNER, BRIDGE, 0, 0, 0, 0, 1);
    assert_eq!(address, Err(Refusal::NoSuchBridge));
}
