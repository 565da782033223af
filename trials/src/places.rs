//! The arguments of address and locate calls, at and around the edges of bridges and windows.

use crate::call::Address;
use crate::mcfg::{BUS_BYTES, Entry};
use crate::random::Random;
use crate::row::Row;

/// Half of these calls name a place of the bridge that the row starts; in the others any number may be off.
pub fn any_address(random: &mut Random, session: u8, bridge: u8, row: &Row) -> Address {
    let width = random.pick(&[1, 2, 4]);
    let mut call = Address {
        session,
        bridge,
        bus: any_bus(random, row),
        device: random.below(32) as u32,
        function: random.below(8) as u32,
        offset: random.below(4096) as u32 & !(width - 1),
        width,
    };
    match random.below(6) {
        0 => spoil(random, &mut call),
        1 => widen(random, &mut call),
        _ => {}
    }
    call
}

/// A bus of the row or, once in five times, one beside it.
fn any_bus(random: &mut Random, row: &Row) -> u32 {
    let (first, last) = (u32::from(row.first), u32::from(row.last));
    let inside = random.between(row.first.into(), row.last.into()) as u32;
    if random.one_in(5) {
        random.pick(&[first.wrapping_sub(1), last + 1, 0, 255])
    } else {
        inside
    }
}

/// Sets a number to its limit or near it.
fn spoil(random: &mut Random, call: &mut Address) {
    match random.below(4) {
        0 => call.device = random.pick(&[31, 32, 33, 255]),
        1 => call.function = random.pick(&[7, 8, 9, 255]),
        2 => {
            call.offset = random.pick(&[
                0, 1, 2, 3, 4091, 4092, 4093, 4094, 4095, 4096, 4097, 4098, 65532, 65535,
            ])
        }
        _ => call.width = random.pick(&[0, 3, 5, 8, 16, 255]),
    }
}

/// Sets bits of a number above a byte or a half word; what is below them mostly stays sound.
fn widen(random: &mut Random, call: &mut Address) {
    let number = match random.below(5) {
        0 => &mut call.bus,
        1 => &mut call.device,
        2 => &mut call.function,
        3 => &mut call.offset,
        _ => &mut call.width,
    };
    *number = random.pick(&[
        256,
        number.wrapping_add(256),
        number.wrapping_add(0x1_0000),
        *number | 0x8000_0000,
        u32::MAX,
    ]);
}

/// The address that document 01 gives to the place, whether or not it is refused.
pub fn address_of(entry: &Entry, call: &Address) -> u64 {
    let [bus, device, function, offset] =
        [call.bus, call.device, call.function, call.offset].map(u64::from);
    let within_bus = (device << 15) + (function << 12) + offset;
    entry.base.wrapping_add(bus * BUS_BYTES + within_bus)
}

/// The first byte of a window, and of the window after it.
pub fn edges(entry: &Entry, first: u8, last: u8) -> [u64; 2] {
    let start = entry.base.wrapping_add(u64::from(first) * BUS_BYTES);
    let end = entry.base.wrapping_add((u64::from(last) + 1) * BUS_BYTES);
    [start, end]
}

/// An address at an edge of the row or of its entry, one byte beside it, or inside the row.
pub fn near_address(random: &mut Random, entry: &Entry, row: &Row) -> u64 {
    let [start, end] = edges(entry, row.first, row.last);
    let [entry_start, entry_end] = edges(entry, entry.start, entry.end);
    let beside = random.pick(&[0, 1, u64::MAX]);
    match random.below(8) {
        0 => start.wrapping_add(beside),
        1 => end.wrapping_add(beside),
        2 => entry_start.wrapping_add(beside),
        3 => entry_end.wrapping_add(beside),
        4 => entry.base.wrapping_add(beside),
        _ => start.wrapping_add(random.long() % end.wrapping_sub(start)),
    }
}
