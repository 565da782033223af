//! Each way to sum an MCFG table, on a million sound tables of 16 entries.

use std::hint::black_box;
use std::time::Instant;

use trials::exhaustive::sums::every_length;
use trials::mcfg::{ENTRY, HEADER};

use crate::cases::Runner;
use crate::inputs::sound_tables;
use crate::sums::WAYS;
use crate::timing::{REPEATS, rising};

pub const ENTRIES: u8 = 16;
pub const BYTES: usize = HEADER + ENTRY * ENTRIES as usize;
const SUMS: usize = 1_000_000;
/// So many tables stay in the first-level cache.
pub const FEW: usize = 32;
const _: () = assert!(SUMS.is_multiple_of(FEW));

/// Nanoseconds a sum, in rising order, over the repeats.
pub struct Sums {
    pub name: &'static str,
    /// Each sum of another table.
    pub all: [f64; REPEATS],
    /// A few tables, one after the other, again and again.
    pub few: [f64; REPEATS],
}

/// A million different tables that start takes, one behind the other.
fn tables() -> Vec<u8> {
    let mut tables = Vec::with_capacity(SUMS * BYTES);
    for table in sound_tables(ENTRIES).take(SUMS) {
        assert!(slipwattle::Table::start(&table, &[]).is_ok());
        tables.extend(table);
    }
    tables
}

/// Nanoseconds a sum, over a million sums. Each is 0, as the tables are sound.
fn pass(sum: fn(&[u8]) -> u8, tables: &[u8]) -> f64 {
    let sum = black_box(sum);
    let begun = Instant::now();
    let mut all = 0;
    for _ in 0..SUMS * BYTES / tables.len() {
        for table in tables.chunks_exact(BYTES) {
            all |= sum(table);
        }
    }
    let taken = begun.elapsed().as_nanos() as f64 / SUMS as f64;
    assert_eq!(all, 0);
    taken
}

/// The ways take turns, and another begins in each repeat.
pub fn timed() -> Vec<Sums> {
    let tables = tables();
    let mut sums = WAYS.map(|way| {
        every_length(way.sum).expect(way.name);
        Sums {
            name: way.name,
            all: [0.0; REPEATS],
            few: [0.0; REPEATS],
        }
    });
    for repeat in 0..REPEATS {
        for turn in 0..WAYS.len() {
            let way = (repeat + turn) % WAYS.len();
            sums[way].all[repeat] = pass(WAYS[way].sum, &tables);
            sums[way].few[repeat] = pass(WAYS[way].sum, &tables[..FEW * BYTES]);
        }
    }
    for sums in &mut sums {
        (sums.all, sums.few) = (rising(sums.all), rising(sums.few));
    }
    sums.into()
}

/// A sum in each way, for the count of its instructions; the other side does nothing.
pub fn cases(run: &mut impl Runner) {
    for (way, table) in WAYS.iter().zip(sound_tables(ENTRIES)) {
        let sum = black_box(way.sum);
        run.case(way.name, || sum(&table), || ());
    }
}
