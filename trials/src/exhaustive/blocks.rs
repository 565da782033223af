//! Record blocks with one byte changed, cut, and of every length, and the types that are asked for.

use super::Bench;
use crate::blocks::{self, MOST_BYTES};
use crate::call::{FindRecord, RegisterValues, Start};
use crate::mcfg::{self, Entry};
use crate::random::Random;
use crate::requests;
use crate::row::Row;
use crate::service::Pair;

pub const OWNER: u8 = 7;
/// Bridge 0 takes hot plug without AER, bridge 1 with it.
pub const CONTROLS: [u32; 2] = [0x11, 0x19];

pub fn started(make: fn() -> Pair) -> Result<Bench, String> {
    let entry = Entry {
        base: 0,
        segment: 0,
        start: 0,
        end: 1,
    };
    let row = |bus| Row::express(OWNER, 0, bus, bus);
    let mcfg = mcfg::table(&mut Random::new(0), &[entry]);
    let start = Start {
        mcfg: mcfg.into(),
        rows: vec![row(0), row(1)].into(),
    };
    let take = |bridge: usize| requests::right_call(OWNER, bridge as u8, 0, 0, CONTROLS[bridge]);
    Bench::new(make, vec![start.into(), take(0).into(), take(1).into()])
}

/// All three types, a tag that is skipped and a revision that is skipped.
fn sound_block() -> Vec<u8> {
    let random = &mut Random::new(1);
    let skipped_tag = blocks::field(3, &[1, 0]);
    let skipped_revision = blocks::numbers_field(0, 2, &[0xFFFF_FFFF]);
    let [first, second, third] = [0, 1, 2].map(|record_type| blocks::record(random, record_type));
    [skipped_tag, first, skipped_revision, second, third].concat()
}

pub fn changed_bytes(make: fn() -> Pair) -> Result<u64, String> {
    let mut bench = started(make)?;
    let sound = sound_block();
    for index in 0..sound.len() {
        for value in 0..=u8::MAX {
            let mut changed = sound.clone();
            changed[index] = value;
            check(&mut bench, &changed, &sound)?;
        }
    }
    Ok(bench.count)
}

pub fn cut_blocks(make: fn() -> Pair) -> Result<u64, String> {
    let mut bench = started(make)?;
    let sound = sound_block();
    for length in 0..=sound.len() {
        check(&mut bench, &sound[..length], &sound)?;
    }
    Ok(bench.count)
}

/// A skipped field, and a type 2 record at the end.
pub fn lengths(make: fn() -> Pair) -> Result<u64, String> {
    let mut bench = started(make)?;
    let record = blocks::record(&mut Random::new(1), 2);
    for skipped in 0..=MOST_BYTES + 100 - 3 - record.len() {
        let block = [blocks::field(3, &vec![0x55; skipped]), record.clone()].concat();
        bench.check(FindRecord {
            slot: Vec::new().into(),
            bridge_block: block.into(),
            record_type: 2,
        })?;
    }
    Ok(bench.count)
}

/// Every type of a byte, the same with bits above a byte and above a half word, and the last.
pub fn types(make: fn() -> Pair) -> Result<u64, String> {
    let mut bench = Bench::new(make, Vec::new())?;
    let sound = sound_block();
    for above in [0, 0x100, 0xFF00, 0x1_0000, 0x8000_0000, 0xFFFF_FF00] {
        for low in 0..=0xFF {
            bench.check(FindRecord {
                slot: sound.clone().into(),
                bridge_block: Vec::new().into(),
                record_type: above | low,
            })?;
        }
    }
    Ok(bench.count)
}

/// Types 0 to 3 and register values, with the block as the slot's, beside a sound one, and as the bridge's.
fn check(bench: &mut Bench, block: &[u8], sound: &[u8]) -> Result<(), String> {
    let current = [
        0xFFFF_0000,
        0x0F0F_0F0F,
        0,
        u32::MAX,
        0x2110,
        0xFFFF,
        0x5555_5555,
        0xAAAA_AAAA,
    ];
    for (slot, bridge_block) in [(block, sound), (&[], block)] {
        let lent = |block: &[u8]| block.to_vec().into();
        for record_type in 0..=3 {
            bench.check(FindRecord {
                slot: lent(slot),
                bridge_block: lent(bridge_block),
                record_type,
            })?;
        }
        for bridge in 0..CONTROLS.len() as u8 {
            bench.check(RegisterValues {
                session: OWNER,
                bridge,
                slot: lent(slot),
                bridge_block: lent(bridge_block),
                current: current.to_vec().into(),
            })?;
        }
    }
    Ok(())
}
