//! Places and addresses.

use super::Bench;
use crate::call::{Address, Locate, Start};
use crate::given::{Given, Handed};
use crate::mcfg::{self, BUS_BYTES, Entry};
use crate::places;
use crate::random::Random;
use crate::row::Row;
use crate::rows::HIGHEST_OWNER;
use crate::service::Pair;

/// Every session that may own a bridge, the one after them, and the last number.
fn sessions() -> impl Iterator<Item = u8> {
    (0..=HIGHEST_OWNER + 1).chain([u8::MAX])
}

/// Touching windows, one that starts above bus 0, one that ends at 2^64.
const ENTRIES: [Entry; 4] = [
    Entry {
        base: 0,
        segment: 0,
        start: 0,
        end: 15,
    },
    Entry {
        base: 0,
        segment: 0,
        start: 16,
        end: 31,
    },
    Entry {
        base: 0xE000_0000,
        segment: 1,
        start: 32,
        end: 63,
    },
    Entry {
        base: 0xFFFF_FFFF_F000_0000,
        segment: 0xFFFF,
        start: 128,
        end: 255,
    },
];

/// Rows at the edges of their entries, of one bus, touching, and with buses between them.
const ROWS: [Row; 9] = [
    Row::express(0, 0, 0, 0),
    Row::express(1, 0, 1, 15),
    Row::express(0, 0, 16, 31),
    Row::express(1, 1, 32, 40),
    Row::express(2, 1, 41, 41),
    Row::express(1, 1, 43, 63),
    Row::express(63, 0xFFFF, 128, 200),
    Row::express(0, 0xFFFF, 202, 254),
    Row::express(2, 0xFFFF, 255, 255),
];

/// Numbers that are those of a byte once their upper bits are lost, and the last number.
fn beyond_a_byte() -> impl Iterator<Item = u32> {
    let above = |bits: u32| (0..=0xFF).map(move |low| bits | low);
    above(0x100)
        .chain(above(0x1_0000))
        .chain(above(0x8000_0000))
        .chain([u32::MAX])
}

/// 64 rows, each of another owner, in four entries of 64 buses: the windows of the first two touch, the last ends at 2^64. Rows have 1 to
/// 4 buses; one of 4 touches the next.
fn full() -> (Vec<Entry>, Vec<Row>) {
    let first_buses = [0, 64, 0xE00, (1 << 44) - 64];
    let entry = |k: u8| Entry {
        base: (first_buses[usize::from(k)] - 10 * u64::from(k)) * BUS_BYTES,
        segment: 0x0101 * u16::from(k),
        start: 10 * k,
        end: 10 * k + 63,
    };
    let row = |n: u8| {
        let (k, j) = (n / 16, n % 16);
        let first = 10 * k + 4 * j;
        Row::express(n, 0x0101 * u16::from(k), first, first + j % 4)
    };
    ((0..4).map(entry).collect(), (0..64).map(row).collect())
}

fn started(make: fn() -> Pair) -> Result<Bench, String> {
    start(make, &ENTRIES, &ROWS)
}

fn start(make: fn() -> Pair, entries: &[Entry], rows: &[Row]) -> Result<Bench, String> {
    let mcfg = mcfg::table(&mut Random::new(0), entries);
    let start = Start {
        mcfg: mcfg.into(),
        rows: rows.to_vec().into(),
    };
    let mut bench = Bench::new(make, Vec::new())?;
    let given = bench.check(start)?.map(|given| given.number);
    assert_eq!(given, Some(0), "the start is sound");
    bench.count = 0;
    Ok(bench)
}

/// The address call for a place on bus 33, which bridge 3 has.
fn asked(device: u32, function: u32, offset: u32, width: u32) -> Address {
    Address {
        session: ROWS[3].owner,
        bridge: 3,
        bus: 33,
        device,
        function,
        offset,
        width,
    }
}

pub fn offsets_and_widths(make: fn() -> Pair) -> Result<u64, String> {
    let mut bench = started(make)?;
    let beyond = [0xFFFF, 0x1_0000, 0x1_0010, 0x1_0FFC, 0x8000_0000, u32::MAX];
    for offset in (0..=4200).chain(beyond) {
        for width in 0..=0xFF {
            bench.check(asked(31, 7, offset, width))?;
        }
    }
    for width in beyond_a_byte() {
        bench.check(asked(31, 7, 0, width))?;
    }
    Ok(bench.count)
}

/// Every pair of bytes, and the numbers beyond with what is sound beside them.
pub fn devices_and_functions(make: fn() -> Pair) -> Result<u64, String> {
    let mut bench = started(make)?;
    for device in 0..=0xFF {
        for function in 0..=0xFF {
            bench.check(asked(device, function, 0xFFC, 4))?;
        }
    }
    for beyond in beyond_a_byte() {
        bench.check(asked(beyond, 7, 0xFFC, 4))?;
        bench.check(asked(31, beyond, 0xFFC, 4))?;
    }
    Ok(bench.count)
}

/// Every bus under each session, and each address given read back under each session.
pub fn buses_and_sessions(make: fn() -> Pair) -> Result<u64, String> {
    let mut bench = started(make)?;
    for bridge in (0..=ROWS.len() as u8).chain([u8::MAX]) {
        for session in sessions() {
            for bus in (0..=0xFF).chain(beyond_a_byte()) {
                let call = Address {
                    session,
                    bridge,
                    bus,
                    device: 31,
                    function: 7,
                    offset: 4095,
                    width: 1,
                };
                if let Some(Given {
                    number: 0,
                    handed: Handed::Address(address),
                }) = bench.check(call)?
                {
                    read_back(&mut bench, address)?;
                }
            }
        }
    }
    Ok(bench.count)
}

fn read_back(bench: &mut Bench, address: u64) -> Result<(), String> {
    for session in sessions() {
        bench.check(Locate { session, address })?;
    }
    Ok(())
}

pub fn edges(make: fn() -> Pair) -> Result<u64, String> {
    let (entries, rows) = full();
    Ok(edges_of(make, &ENTRIES, &ROWS)? + edges_of(make, &entries, &rows)?)
}

/// Reads back the addresses at the edges of every entry and row, under each session.
fn edges_of(make: fn() -> Pair, entries: &[Entry], rows: &[Row]) -> Result<u64, String> {
    let mut bench = start(make, entries, rows)?;
    let of_entries = entries.iter().map(|entry| (entry, entry.start, entry.end));
    let of_rows = rows
        .iter()
        .filter_map(|row| Some((row.entry(entries)?, row.first, row.last)));
    for (entry, first, last) in of_entries.chain(of_rows) {
        for edge in places::edges(entry, first, last) {
            for address in [edge.wrapping_sub(1), edge, edge.wrapping_add(1)] {
                read_back(&mut bench, address)?;
            }
        }
    }
    Ok(bench.count)
}
