//! What the calls are given: MCFG tables, rows, tables, record blocks.

use std::iter;

use slipwattle::sys;
use trials::blocks::{MOST_BYTES, field, numbers_field};
use trials::editions::{EDITION_3_3, OLD_EDITION, known_control};
use trials::mcfg::{self, Entry};
use trials::random::Random;

/// The bridge that most calls name; bridge number and owner are the same number in every table here.
pub const BRIDGE: u8 = 9;

/// An MCFG table: entry `k` is segment `k`, buses 0 to 255, a window of its own above the one before.
pub fn mcfg_table(entries: u8) -> Vec<u8> {
    table_of(0..entries)
}

/// The same entries, from the last to the first.
pub fn falling_table(entries: u8) -> Vec<u8> {
    table_of((0..entries).rev())
}

/// The table of so many entries again and again, each time with other bytes where no rule reads them.
pub fn sound_tables(entries: u8) -> impl Iterator<Item = Vec<u8>> {
    let entries = entries_of(0..entries);
    let mut random = Random::new(1);
    iter::repeat_with(move || mcfg::table(&mut random, &entries))
}

fn table_of(entries: impl Iterator<Item = u8>) -> Vec<u8> {
    mcfg::table(&mut Random::new(1), &entries_of(entries))
}

fn entries_of(numbers: impl Iterator<Item = u8>) -> Vec<Entry> {
    let entry = |k: u8| Entry {
        base: (u64::from(k) + 1) << 32,
        segment: k.into(),
        start: 0,
        end: 255,
    };
    numbers.map(entry).collect()
}

/// Row `k` of owner `k`, of the old edition: 4 buses of segment `k` or, where all are in one, of segment 0.
pub fn rows(count: u8, one_segment: bool) -> Vec<sys::BridgeRow> {
    let row = |k: u8| sys::BridgeRow {
        permitted: known_control(OLD_EDITION),
        segment: if one_segment { 0 } else { k.into() },
        owner: session(k).0,
        first_bus: 4 * k,
        last_bus: 4 * k + 3,
        kind: 0,
        edition: OLD_EDITION,
    };
    (0..count).map(row).collect()
}

/// The same rows for the reference.
pub fn their_rows(rows: &[sys::BridgeRow]) -> Vec<reference::BridgeRow> {
    let row = |row: &sys::BridgeRow| reference::BridgeRow {
        owner: session(row.owner.number).1,
        segment: row.segment,
        first_bus: row.first_bus,
        last_bus: row.last_bus,
        kind: row.kind,
        permitted: row.permitted,
        edition: row.edition,
    };
    rows.iter().map(row).collect()
}

pub fn session(number: u8) -> (sys::SessionNumber, reference::SessionNumber) {
    (
        sys::SessionNumber { number },
        reference::SessionNumber(number),
    )
}

pub fn bridge(number: u8) -> (sys::BridgeNumber, reference::BridgeNumber) {
    (
        sys::BridgeNumber { number },
        reference::BridgeNumber(number),
    )
}

/// The same table on both sides.
pub struct Tables {
    pub ours: sys::Table,
    pub theirs: reference::Table,
}

/// Tables with a bridge for each of 64 rows.
pub fn tables() -> Tables {
    tables_of(&rows(64, false))
}

/// The same of edition 3.3; every bit that it knows is permitted.
pub fn tables_3_3() -> Tables {
    let mut rows = rows(64, false);
    for row in &mut rows {
        (row.edition, row.permitted) = (EDITION_3_3, known_control(EDITION_3_3));
    }
    tables_of(&rows)
}

fn tables_of(r: &[sys::BridgeRow]) -> Tables {
    let m = mcfg_table(64);
    // SAFETY: pointers and lengths of two slices.
    let started = unsafe { sys::slipwattle_start(m.as_ptr(), m.len(), r.as_ptr(), r.len()) };
    assert_eq!(started.number, 0);
    let theirs = reference::Table::start(&m, &their_rows(r)).expect("a sound start");
    Tables {
        ours: started.table,
        theirs,
    }
}

/// The 42-byte example of document 01's bench sheet.
pub fn example_block() -> Vec<u8> {
    [
        numbers_field(0, 1, &[8, 0x40, 1, 0]),
        numbers_field(1, 1, &[3, 4, 7]),
    ]
    .concat()
}

/// A type 2 record, 71 bytes. Some bits are cleared, some kept and some set.
pub fn type_2() -> Vec<u8> {
    let pairs = [
        [0xFFFF_FFF6, 6],
        [0xFFFF, 0x10],
        [0xFFF, 0],
        [0xFF, 1],
        [0xFFF6, 6],
        [0xFFF6, 6],
        [0xFFFF_FFFF, 0],
        [0xFFFF_FFF6, 6],
    ];
    numbers_field(2, 1, pairs.as_flattened())
}

/// The three records behind so many skipped fields of 8 bytes: 81 of them make 1,004 bytes.
pub fn long_block(skipped: usize) -> Vec<u8> {
    let skipped = field(0x80, &[0x55; 8]).repeat(skipped);
    [skipped, example_block(), type_2()].concat()
}

/// The three records behind 361 skipped fields of 8 bytes and one of 9: a block of the greatest length.
pub fn longest_block() -> Vec<u8> {
    let block = [field(0x80, &[0x55; 9]), long_block(361)].concat();
    assert_eq!(block.len(), MOST_BYTES);
    block
}
