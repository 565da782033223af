//! Lists of rows: sound ones, and ones that break a rule or stand at its edge.

use crate::editions::{EDITION_3_3, OLD_EDITION, known_control};
use crate::mcfg::Entry;
use crate::random::Random;
use crate::row::{CONVENTIONAL, EXPRESS, NUMBERS, Row};

pub const MOST_ROWS: usize = 64;
pub const HIGHEST_OWNER: u8 = 63;

/// Up to `most` rows inside these entries, of both editions; sound if they are at most 64. Where many are asked for, each is short, so that
/// there are buses for all.
pub fn sound_rows(random: &mut Random, entries: &[Entry], most: usize) -> Vec<Row> {
    let any = random.between(0, HIGHEST_OWNER.into()) as u8;
    let owners = [0, HIGHEST_OWNER, any];
    let more_buses = if most > 8 {
        [0, 0, 0, 1]
    } else {
        [0, 1, 5, 255]
    };
    let mut rows = Vec::new();
    for entry in entries {
        let mut next = usize::from(entry.start);
        let end = usize::from(entry.end);
        while next <= end && rows.len() < most {
            let first = (next + random.pick(&[0, 0, 0, 1])).min(end);
            let last = (first + random.pick(&more_buses)).min(end);
            let edition = random.pick(&[OLD_EDITION, EDITION_3_3, EDITION_3_3]);
            let (kind, permitted) = kind_and_permitted(random, edition);
            rows.push(Row {
                permitted,
                segment: entry.segment,
                owner: random.pick(&owners),
                first: first as u8,
                last: last as u8,
                kind,
                edition,
                unused: random.byte(),
            });
            next = last + 1;
        }
    }
    random.shuffle(&mut rows);
    rows
}

fn kind_and_permitted(random: &mut Random, edition: u8) -> (u8, u32) {
    if random.one_in(8) {
        return (CONVENTIONAL, random.pick(&[0, 2]));
    }
    let all = known_control(edition);
    let any = random.word() & all;
    let permitted = match edition {
        EDITION_3_3 => random.pick(&[all, all, all, all, all, 0x37F, 0x3F7, 0x3EF, 0x1F, any]),
        _ => random.pick(&[all, all, all, all, 0x17, 0x17, 0x0F, any]),
    };
    (EXPRESS, permitted)
}

/// Rows near these sound ones that break a rule, as a rule.
pub fn spoiled_rows(random: &mut Random, entries: &[Entry], rows: &[Row]) -> Vec<Row> {
    if rows.is_empty() || random.one_in(8) {
        return one_too_many(random, entries);
    }
    let mut spoiled = rows.to_vec();
    let index = random.below(rows.len());
    match random.below(4) {
        0 => spoil_number(random, &mut spoiled[index]),
        1 => spoil_buses(random, entries, &mut spoiled[index]),
        2 => set_any_number(random, &mut spoiled[index]),
        _ => {
            let shared = shared_buses(random, rows[index]);
            spoiled.insert(random.below(rows.len() + 1), shared);
            spoiled.truncate(MOST_ROWS);
        }
    }
    spoiled
}

/// 65 rows, which are sound but for that where the entries have buses for all of them.
fn one_too_many(random: &mut Random, entries: &[Entry]) -> Vec<Row> {
    let mut rows = sound_rows(random, entries, MOST_ROWS + 1);
    rows.resize(MOST_ROWS + 1, Row::express(0, 0, 0, 0));
    rows
}

fn spoil_number(random: &mut Random, row: &mut Row) {
    match random.below(7) {
        0 => row.owner = random.pick(&[64, 65, 255, row.owner | 0x40]),
        1 => row.kind = random.pick(&[2, 2, 3, 255, 0x80, row.kind | 0x80]),
        2 => row.permitted |= unknown_bit(random, row.edition),
        3 => (row.kind, row.permitted) = (CONVENTIONAL, more_than_bit_1(random, row.edition)),
        4 => row.edition = random.pick(&[2, 2, 3, 255, 0x80, row.edition | 0x80]),
        5 => row.edition ^= 1,
        _ => {
            row.segment = random.pick(&[
                row.segment ^ 1,
                row.segment.wrapping_add(1),
                row.segment ^ 0x8000,
            ])
        }
    }
}

/// A bit that the edition does not know, mostly one of the first.
fn unknown_bit(random: &mut Random, edition: u8) -> u32 {
    let beyond = known_control(edition) + 1;
    random.pick(&[beyond, beyond, beyond << 1, beyond << 3, 1 << 31])
}

/// Known bits of which one, at least, is not bit 1.
fn more_than_bit_1(random: &mut Random, edition: u8) -> u32 {
    let all = known_control(edition);
    let high = 1 << random.between(2, all.count_ones() as usize - 1);
    random.pick(&[1, 3, 0x10, 0x12, high, high, all])
}

/// Buses off by one at either edge of the row or of its entry.
fn spoil_buses(random: &mut Random, entries: &[Entry], row: &mut Row) {
    let (start, end) = row
        .entry(entries)
        .map_or((0, 255), |entry| (entry.start, entry.end));
    match random.below(6) {
        0 => row.first = start.wrapping_sub(1),
        1 => row.last = end.wrapping_add(1),
        2 => row.first = row.last.wrapping_add(1),
        3 => row.last = row.first.wrapping_sub(1),
        4 => (row.first, row.last) = (start, end.wrapping_add(1)),
        _ => (row.first, row.last) = (start, end),
    }
}

fn set_any_number(random: &mut Random, row: &mut Row) {
    let mut numbers = row.numbers();
    numbers[random.below(NUMBERS)] = random.long();
    *row = Row::from_numbers(&numbers);
}

/// A row that shares a bus, or all its buses, with this one.
fn shared_buses(random: &mut Random, row: Row) -> Row {
    match random.below(3) {
        0 => Row {
            first: row.last,
            ..row
        },
        1 => Row {
            last: row.first,
            ..row
        },
        _ => row,
    }
}
