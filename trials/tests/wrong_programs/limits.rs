//! The limits of document 02, e, each one too low and one too high, and the last of 64 bridges missed.

use trials::call::{Call, FindRecord, Start};
use trials::given::{Given, Handed};
use trials::mcfg::{self, ENTRY, HEADER};
use trials::service::{Pair, Reference, Service};

use crate::misread_starts::found_start;
use crate::wrong::{Wrong, found, found_exhaustively, instead, pair};

/// The reference, which also refuses these of the starts that are sound.
fn refuses(wrong: &mut Wrong, call: &mut Call, number: u8, these: fn(&Start) -> bool) -> Given {
    let given = wrong.reference.call(call);
    match call {
        Call::Start(start) if given.number == 0 && these(start) => {
            wrong.reference = Reference::new();
            Given {
                number,
                handed: Handed::zeros(call),
            }
        }
        _ => given,
    }
}

/// The start that shows the wrong rule by itself has so many rows. Of two entries it keeps both where each has a row.
fn found_rows(make: fn() -> Pair, rows: usize) {
    let found = found(make);
    let [Call::Start(start)] = &found.list[..] else {
        panic!("{}", found.report());
    };
    assert_eq!(start.rows.lent().len(), rows);
}

#[test]
fn rows_63_at_most() {
    let make =
        || pair(|wrong, call| refuses(wrong, call, 7, |start| start.rows.lent().len() == 64));
    found_rows(make, 64);
}

fn starts_64_of_65_rows(call: &mut Call) {
    if let Call::Start(start) = call
        && let [rows @ .., _] = start.rows.lent()
        && rows.len() == 64
    {
        start.rows = rows.to_vec().into();
    }
}

#[test]
fn rows_65_accepted() {
    let make = || pair(|wrong, call| instead(wrong, call, starts_64_of_65_rows));
    found_rows(make, 65);
}

/// Takes one owner for another.
fn takes_owner<const OWNER: u8, const FOR: u8>(call: &mut Call) {
    if let Call::Start(start) = call {
        let rows = start.rows.lent_mut().iter_mut();
        rows.filter(|row| row.owner == OWNER)
            .for_each(|row| row.owner = FOR);
    }
}

/// The owner of the one row that shows the wrong rule.
fn found_owner(make: fn() -> Pair) -> u8 {
    found_start(make, (HEADER + ENTRY, 1)).rows.lent()[0].owner
}

#[test]
fn owner_62_the_highest() {
    let owner = found_owner(|| pair(|wrong, call| instead(wrong, call, takes_owner::<63, 64>)));
    assert_eq!(owner, 63);
}

#[test]
fn owner_64_accepted() {
    let owner = found_owner(|| pair(|wrong, call| instead(wrong, call, takes_owner::<64, 63>)));
    assert_eq!(owner, 64);
}

#[test]
fn entries_63_at_most() {
    let make =
        || pair(|wrong, call| refuses(wrong, call, 6, |start| start.mcfg.lent().len() == 1068));
    found_start(make, (1068, 0));
}

fn reads_64_of_65_entries(call: &mut Call) {
    if let Call::Start(start) = call
        && start.mcfg.lent().len() == 1084
    {
        let mut mcfg = start.mcfg.lent()[..1068].to_vec();
        mcfg::mend(&mut mcfg);
        start.mcfg = mcfg.into();
    }
}

#[test]
fn entries_65_accepted() {
    let make = || pair(|wrong, call| instead(wrong, call, reads_64_of_65_entries));
    found_start(make, (1084, 0));
}

/// The bytes of the deciding block.
fn deciding(call: &FindRecord) -> usize {
    match call.slot.lent().len() {
        0 => call.bridge_block.lent().len(),
        bytes => bytes,
    }
}

/// The number of a search in a block of so many bytes.
fn searched(wrong: &mut Wrong, call: &mut Call, bytes: usize, from: u8, to: u8) -> Given {
    let given = wrong.reference.call(call);
    match call {
        Call::FindRecord(search) if given.number == from && deciding(search) == bytes => Given {
            number: to,
            handed: Handed::zeros(call),
        },
        _ => given,
    }
}

/// The bytes of the deciding block of the search that shows the wrong rule.
fn found_block(make: fn() -> Pair) -> usize {
    let found = found(make);
    let [Call::FindRecord(search)] = &found.list[..] else {
        panic!("{}", found.report());
    };
    deciding(search)
}

#[test]
fn blocks_of_4095_bytes_at_most() {
    let bytes = found_block(|| pair(|wrong, call| searched(wrong, call, 4096, 9, 8)));
    assert_eq!(bytes, 4096);
}

#[test]
fn blocks_of_4097_bytes_accepted() {
    let bytes = found_block(|| pair(|wrong, call| searched(wrong, call, 4097, 8, 9)));
    assert_eq!(bytes, 4097);
}

/// Finds no address in bridge 63.
fn misses_the_last_bridge(wrong: &mut Wrong, call: &mut Call) -> Given {
    let given = wrong.reference.call(call);
    match given.handed {
        Handed::Place { bridge: 63, .. } => Given {
            number: 4,
            handed: Handed::zeros(call),
        },
        _ => given,
    }
}

#[test]
fn the_last_of_64_bridges_missed() {
    let why = found_exhaustively(|| pair(misses_the_last_bridge));
    assert!(why.contains("call 1: locate"), "{why}");
}
