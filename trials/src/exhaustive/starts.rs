//! Starts from an MCFG table with one byte changed, or a row with one number changed; from a row of every edition with every permitted bit;
//! of every number of rows and entries, and every length of the table; with two of them that share something.

use super::Bench;
use crate::call::{Address, Report, Start};
use crate::editions::{EDITION_3_3, OLD_EDITION, known_control};
use crate::mcfg::{self, CHECKSUM, Entry, MOST_ENTRIES};
use crate::random::Random;
use crate::requests;
use crate::row::{CONVENTIONAL, EXPRESS, NUMBERS, Row};
use crate::rows::MOST_ROWS;
use crate::service::Pair;

/// Touching windows of two segments, the last of which ends at 2^64.
const ENTRIES: [Entry; 4] = [
    Entry {
        base: 0xE000_0000,
        segment: 0,
        start: 0,
        end: 63,
    },
    Entry {
        base: 0xE000_0000,
        segment: 0,
        start: 64,
        end: 127,
    },
    Entry {
        base: 0xE800_0000,
        segment: 0x0102,
        start: 0,
        end: 3,
    },
    Entry {
        base: 0xFFFF_FFFF_F800_0000,
        segment: 0x0102,
        start: 100,
        end: 127,
    },
];

/// Rows of both editions in turn.
const ROWS: [Row; 6] = [
    Row::express(0, 0, 0, 63),
    Row::express_3_3(1, 0, 64, 64),
    Row {
        kind: CONVENTIONAL,
        permitted: 2,
        ..Row::express(1, 0, 66, 126)
    },
    Row {
        kind: CONVENTIONAL,
        permitted: 2,
        ..Row::express_3_3(0, 0x0102, 0, 0)
    },
    Row {
        permitted: 0x0F,
        ..Row::express(0, 0x0102, 1, 3)
    },
    Row {
        permitted: 0,
        ..Row::express_3_3(2, 0x0102, 127, 127)
    },
];

/// Each byte changed to each value, with the checksum left and with the checksum mended.
pub fn changed_bytes(make: fn() -> Pair) -> Result<u64, String> {
    let sound = mcfg::table(&mut Random::new(0), &ENTRIES);
    let mut bench = Bench::new(make, Vec::new())?;
    for index in 0..sound.len() {
        for value in 0..=u8::MAX {
            let mut changed = sound.clone();
            changed[index] = value;
            start(&mut bench, &changed, &ROWS)?;
            mcfg::mend_checksum(&mut changed);
            start(&mut bench, &changed, &ROWS)?;
        }
    }
    Ok(bench.count)
}

/// Each number of each row changed to each value of a byte, and to each bit of a DWORD, of which a row keeps as many as it has room for.
pub fn changed_rows(make: fn() -> Pair) -> Result<u64, String> {
    let mcfg = mcfg::table(&mut Random::new(0), &ENTRIES);
    let mut bench = Bench::new(make, Vec::new())?;
    let values = (0..=0xFF).chain((8..32).map(|bit| 1 << bit));
    for (index, row) in ROWS.iter().enumerate() {
        for number in 0..NUMBERS {
            for value in values.clone() {
                let mut numbers = row.numbers();
                numbers[number] = value;
                let mut changed = ROWS;
                changed[index] = Row::from_numbers(&numbers);
                start(&mut bench, &mcfg, &changed)?;
            }
        }
    }
    Ok(bench.count)
}

/// One row of every edition of a byte, Express and conventional, that permits no bit, any one bit, or all that an edition knows.
pub fn editions(make: fn() -> Pair) -> Result<u64, String> {
    let mcfg = mcfg::table(&mut Random::new(0), &many_entries(1));
    let mut bench = Bench::new(make, Vec::new())?;
    let all = [OLD_EDITION, EDITION_3_3].map(known_control);
    let permitted = || (0..32).map(|bit| 1 << bit).chain([0]).chain(all);
    for edition in 0..=u8::MAX {
        for kind in [EXPRESS, CONVENTIONAL] {
            for permitted in permitted() {
                let row = Row {
                    permitted,
                    kind,
                    edition,
                    ..Row::express(1, 0, 0, 255)
                };
                let permissible = match kind {
                    EXPRESS => known_control(edition),
                    _ => 2,
                };
                let sound = edition <= EDITION_3_3 && permitted & !permissible == 0;
                let number = if sound { 0 } else { 7 };
                expect_start(&mut bench, &mcfg, &[row], number)?;
            }
        }
    }
    Ok(bench.count)
}

/// So many entries: entry `k` has segment `k`, buses 0 to 255 and a window of its own, each touching the next.
fn many_entries(count: usize) -> Vec<Entry> {
    let entry = |k| Entry {
        base: u64::from(k) << 28,
        segment: k,
        start: 0,
        end: 255,
    };
    (0..count as u16).map(entry).collect()
}

/// So many rows of segment 0: row `k` has bus `k` alone; the 64 owners take turns, and the two editions.
fn many_rows(count: usize) -> Vec<Row> {
    let row = |k| match k % 2 {
        0 => Row::express(k % 64, 0, k, k),
        _ => Row::express_3_3(k % 64, 0, k, k),
    };
    (0..count as u8).map(row).collect()
}

/// Every number of rows in one entry, and of entries with a row in the last.
pub fn numbers(make: fn() -> Pair) -> Result<u64, String> {
    let mut bench = Bench::new(make, Vec::new())?;
    let one = mcfg::table(&mut Random::new(0), &many_entries(1));
    for count in 0..=MOST_ROWS + 2 {
        start(&mut bench, &one, &many_rows(count))?;
    }
    for count in 0..=MOST_ENTRIES + 2 {
        let entries = many_entries(count);
        let mcfg = mcfg::table(&mut Random::new(0), &entries);
        let in_last = entries
            .last()
            .map(|last| Row::express(63, last.segment, 0, 255));
        start(&mut bench, &mcfg, in_last.as_slice())?;
    }
    Ok(bench.count)
}

/// Tables of every length, whose length field is right: with the right checksum, and with one more. The sum is taken of at most 64
/// whole entries.
pub fn lengths(make: fn() -> Pair) -> Result<u64, String> {
    let mut bench = Bench::new(make, Vec::new())?;
    let longest = mcfg::table(&mut Random::new(0), &many_entries(MOST_ENTRIES + 2));
    for length in 0..=longest.len() {
        let mut table = longest[..length].to_vec();
        mcfg::mend(&mut table);
        start(&mut bench, &table, &[])?;
        if let Some(checksum) = table.get_mut(CHECKSUM) {
            *checksum = checksum.wrapping_add(1);
        }
        start(&mut bench, &table, &[])?;
    }
    Ok(bench.count)
}

/// As many rows and entries as there may be, sound but that one row has the bus of another, one entry the segment or the base.
pub fn pairs(make: fn() -> Pair) -> Result<u64, String> {
    let mut bench = Bench::new(make, Vec::new())?;
    let (entries, rows) = (many_entries(MOST_ENTRIES), many_rows(MOST_ROWS));
    let one = mcfg::table(&mut Random::new(0), &entries[..1]);
    for i in 0..MOST_ROWS {
        for j in 0..MOST_ROWS {
            let mut shared = rows.clone();
            (shared[i].first, shared[i].last) = (rows[j].first, rows[j].last);
            start(&mut bench, &one, &shared)?;
        }
    }
    for i in 0..MOST_ENTRIES {
        for j in 0..MOST_ENTRIES {
            let [mut bus, mut byte] = [entries.clone(), entries.clone()];
            bus[i].segment = entries[j].segment;
            byte[i].base = entries[j].base;
            for shared in [bus, byte] {
                start(&mut bench, &mcfg::table(&mut Random::new(0), &shared), &[])?;
            }
        }
    }
    Ok(bench.count)
}

fn from(mcfg: &[u8], rows: &[Row]) -> Start {
    Start {
        mcfg: mcfg.to_vec().into(),
        rows: rows.to_vec().into(),
    }
}

/// Where both start, the bridges are compared.
fn start(bench: &mut Bench, mcfg: &[u8], rows: &[Row]) -> Result<(), String> {
    match bench.check(from(mcfg, rows))? {
        Some(given) if given.number == 0 => bridges(bench, rows),
        _ => Ok(()),
    }
}

/// The same, where both must give this number.
fn expect_start(bench: &mut Bench, mcfg: &[u8], rows: &[Row], number: u8) -> Result<(), String> {
    bench.expect(from(mcfg, rows), number)?;
    match number {
        0 => bridges(bench, rows),
        _ => Ok(()),
    }
}

/// An address, a taking call for every bit and a report of each bridge are compared, which show the base that it took, the bits that it
/// permits and its edition.
fn bridges(bench: &mut Bench, rows: &[Row]) -> Result<(), String> {
    for (bridge, row) in (0..).zip(rows) {
        let session = row.owner;
        bench.check(Address {
            session,
            bridge,
            bus: row.last.into(),
            device: 0,
            function: 0,
            offset: 0,
            width: 4,
        })?;
        bench.check(requests::right_call(session, bridge, 0, u32::MAX, u32::MAX))?;
        bench.check(Report { session, bridge })?;
    }
    Ok(())
}
