//! The MCFG table and the starting list.

use crate::build::*;
use reference::{BridgeRow, Refusal, SessionNumber, Table};

/// Starts with these entries and no rows.
fn entries(entries: &[Entry]) -> Result<(), Refusal> {
    start(entries, &[]).map(|table| assert!(table.is_empty()))
}

/// Starts with these rows on one entry, buses 0x10 to 0x8F of segment 7.
fn rows(rows: &[BridgeRow]) -> Result<(), Refusal> {
    start(&[(BASE, 7, 0x10, 0x8F)], rows).map(|table| assert_eq!(table.len(), rows.len()))
}

/// An Express row in segment 7.
fn row_7(first_bus: u8, last_bus: u8) -> BridgeRow {
    BridgeRow {
        segment: 7,
        ..row(first_bus, last_bus, 0x1F)
    }
}

#[test]
fn every_header_byte() {
    let right = mcfg(&[(BASE, 0, 0, 255)]);
    assert!(Table::start(&right, &[]).is_ok());
    for at in 0..right.len() {
        let mut changed = right.clone();
        changed[at] ^= 1;
        let refused = Table::start(&changed, &[]).err();
        assert_eq!(refused, Some(Refusal::Mcfg), "checksum {at}");
        // With the checksum right again, only letters, length, revision and base alignment count.
        let summed = Table::start(&with_checksum(changed), &[]);
        let free = matches!(at, 9..44 | 47..);
        assert_eq!(summed.is_ok(), free, "{at}");
    }
}

#[test]
fn lengths() {
    assert_eq!(entries(&[]), Ok(()));
    for length in 0..44 {
        let short = &mcfg(&[])[..length];
        assert_eq!(Table::start(short, &[]).err(), Some(Refusal::Mcfg));
    }
    for extra in 1..=33 {
        let mut long = mcfg(&[]);
        long.extend(vec![0; extra]);
        assert!(Table::start(&long, &[]).is_err(), "length field");
        long[4] += extra as u8;
        // Whole entries of zeros: the second shares bus 0 with the first.
        let sound = Table::start(&with_checksum(long), &[]).is_ok();
        assert_eq!(sound, extra == 16, "{extra}");
    }
}

#[test]
fn entries_64_and_65() {
    let many: Vec<Entry> = (0..65).map(|n| (u64::from(n) << 28, n, 0, 255)).collect();
    assert_eq!(mcfg(&many[..64]).len(), 1068);
    assert_eq!(entries(&many[..64]), Ok(()));
    assert_eq!(mcfg(&many).len(), 1084);
    assert_eq!(entries(&many), Err(Refusal::Mcfg));
}

#[test]
fn single_entries() {
    assert_eq!(entries(&[(BASE, 0, 9, 9)]), Ok(()));
    assert_eq!(entries(&[(BASE, 0, 9, 8)]), Err(Refusal::Mcfg));
    assert_eq!(entries(&[(BASE + 0x8_0000, 0, 0, 0)]), Err(Refusal::Mcfg));
    assert_eq!(entries(&[(BASE + 0x10_0000, 0, 0, 0)]), Ok(()));
    let last_bus = u64::MAX << 20;
    assert_eq!(entries(&[(last_bus, 0, 0, 0)]), Ok(()));
    assert_eq!(entries(&[(last_bus, 0, 0, 1)]), Err(Refusal::Mcfg));
    assert_eq!(entries(&[(last_bus, 0, 1, 1)]), Err(Refusal::Mcfg));
}

#[test]
fn entries_share_no_bus() {
    let far = 0x10_0000_0000;
    for second in [
        (far, 0, 4, 9),
        (far, 0, 0, 1),
        (far, 0, 2, 3),
        (far, 0, 0, 9),
    ] {
        let first = (0, 0, 1, 4);
        assert_eq!(entries(&[first, second]), Err(Refusal::Mcfg));
        assert_eq!(entries(&[second, first]), Err(Refusal::Mcfg));
        assert_eq!(entries(&[first, (far, 1, second.2, second.3)]), Ok(()));
    }
    assert_eq!(entries(&[(0, 0, 1, 4), (far, 0, 5, 9)]), Ok(()));
}

#[test]
fn entries_share_no_byte() {
    // One base for two segments: only buses that differ keep the windows apart.
    assert_eq!(entries(&[(BASE, 0, 0, 3), (BASE, 1, 4, 9)]), Ok(()));
    assert_eq!(
        entries(&[(BASE, 0, 0, 4), (BASE, 1, 4, 9)]),
        Err(Refusal::Mcfg)
    );
    assert_eq!(
        entries(&[(BASE, 1, 4, 9), (BASE, 0, 0, 4)]),
        Err(Refusal::Mcfg)
    );
    let next = BASE + 0x10_0000;
    assert_eq!(
        entries(&[(BASE, 0, 1, 1), (next, 1, 0, 0)]),
        Err(Refusal::Mcfg)
    );
    assert_eq!(entries(&[(BASE, 0, 0, 0), (next, 1, 0, 0)]), Ok(()));
    let top = 0xFFFF_FFFF_F000_0000;
    assert_eq!(entries(&[(top, 0, 0, 255), (0, 1, 0, 255)]), Ok(()));
    assert_eq!(
        entries(&[(top, 0, 0, 255), (top, 1, 255, 255)]),
        Err(Refusal::Mcfg)
    );
}

#[test]
fn the_last_pair_counts() {
    let mut many: Vec<Entry> = (0..64).map(|n| (u64::from(n) << 28, n, 0, 255)).collect();
    many[63].0 = many[0].0;
    assert_eq!(entries(&many), Err(Refusal::Mcfg));
    let mut list: Vec<_> = (0..64).map(|n| row_7(0x10 + n, 0x10 + n)).collect();
    list[63] = row_7(0x10, 0x10);
    assert_eq!(rows(&list), Err(Refusal::Rows));
}

#[test]
fn single_rows() {
    assert_eq!(rows(&[]), Ok(()));
    assert_eq!(rows(&[row_7(0x10, 0x8F)]), Ok(()));
    assert_eq!(rows(&[row_7(0x11, 0x10)]), Err(Refusal::Rows));
    assert_eq!(rows(&[row_7(0x0F, 0x20)]), Err(Refusal::Rows));
    assert_eq!(rows(&[row_7(0x80, 0x90)]), Err(Refusal::Rows));
    assert_eq!(rows(&[row(0x10, 0x8F, 0)]), Err(Refusal::Rows));
    for owner in 0..=255 {
        let row = BridgeRow {
            owner: SessionNumber(owner),
            ..row_7(0x10, 0x8F)
        };
        assert_eq!(rows(&[row]).is_ok(), owner <= 63);
    }
}

#[test]
fn row_inside_one_entry() {
    let halves = [(BASE, 0, 0, 7), (BASE, 0, 8, 15)];
    assert!(start(&halves, &[row(0, 7, 0), row(8, 15, 0)]).is_ok());
    let across = start(&halves, &[row(7, 8, 0)]);
    assert_eq!(across.unwrap_err(), Refusal::Rows);
    let other = [(0, 0, 0, 7), (BASE, 0, 8, 15)];
    let table = start(&other, &[row(8, 15, 0)]).unwrap();
    let address = table.address(OWNER, BRIDGE, 8, 0, 0, 0, 1);
    assert_eq!(address, Ok(BASE + 0x80_0000));
}

#[test]
fn rows_share_no_bus() {
    assert_eq!(rows(&[row_7(0x10, 0x1F), row_7(0x20, 0x2F)]), Ok(()));
    assert_eq!(rows(&[row_7(0x20, 0x2F), row_7(0x10, 0x1F)]), Ok(()));
    assert_eq!(
        rows(&[row_7(0x10, 0x1F), row_7(0x1F, 0x2F)]),
        Err(Refusal::Rows)
    );
    assert_eq!(
        rows(&[row_7(0x10, 0x8F), row_7(0x30, 0x30)]),
        Err(Refusal::Rows)
    );
    assert_eq!(
        rows(&[row_7(0x30, 0x30), row_7(0x10, 0x8F)]),
        Err(Refusal::Rows)
    );
    let segments = [(BASE, 0, 0, 255), (0x10_0000_0000, 7, 0, 255)];
    assert!(start(&segments, &[row(1, 9, 0), row_7(1, 9)]).is_ok());
}

#[test]
fn permitted_bits() {
    for (edition, highest) in [(OLD, 4), (EDITION_3_3, 9)] {
        for bit in 0..32 {
            let express = BridgeRow {
                permitted: 1 << bit,
                edition,
                ..row_7(0x10, 0x10)
            };
            let conventional = BridgeRow {
                kind: CONVENTIONAL,
                ..express
            };
            assert_eq!(rows(&[express]).is_ok(), bit <= highest);
            assert_eq!(rows(&[conventional]).is_ok(), bit == 1);
        }
    }
}

#[test]
fn editions() {
    let started = |edition, kind, permitted| {
        let row = BridgeRow {
            kind,
            permitted,
            edition,
            ..row_7(0x10, 0x10)
        };
        rows(&[row])
    };
    for (edition, kind, permitted) in [
        (OLD, EXPRESS, 0x1F),
        (OLD, CONVENTIONAL, 0x02),
        (EDITION_3_3, EXPRESS, 0x3FF),
        (EDITION_3_3, CONVENTIONAL, 0x02),
        (EDITION_3_3, CONVENTIONAL, 0),
    ] {
        assert_eq!(started(edition, kind, permitted), Ok(()));
    }
    for (edition, kind, permitted) in [
        (OLD, EXPRESS, 0x20),
        (OLD, EXPRESS, 0x3FF),
        (EDITION_3_3, EXPRESS, 0x400),
        (EDITION_3_3, EXPRESS, 0x8000_03FF),
        (EDITION_3_3, CONVENTIONAL, 0x12),
        (EDITION_3_3, CONVENTIONAL, 0x3FF),
        (EDITION_3_3, CONVENTIONAL, 0x40),
        (EDITION_3_3, 2, 0x02),
    ] {
        assert_eq!(started(edition, kind, permitted), Err(Refusal::Rows));
    }
    for edition in 2..=255 {
        assert_eq!(started(edition, EXPRESS, 0), Err(Refusal::Rows));
        assert_eq!(started(edition, EXPRESS, 0x1F), Err(Refusal::Rows));
        assert_eq!(started(edition, CONVENTIONAL, 0x02), Err(Refusal::Rows));
    }
}

#[test]
fn kinds() {
    let kind = |kind, permitted| {
        let row = row(0, 0, permitted);
        start(&[(BASE, 0, 0, 255)], &[BridgeRow { kind, ..row }]).err()
    };
    assert_eq!(kind(EXPRESS, 0x1F), None);
    assert_eq!(kind(CONVENTIONAL, 0x02), None);
    assert_eq!(kind(CONVENTIONAL, 0x1F), Some(Refusal::Rows));
    for other in 2..=255 {
        assert_eq!(kind(other, 0), Some(Refusal::Rows));
        assert_eq!(kind(other, 0x02), Some(Refusal::Rows));
    }
}

#[test]
fn starts_with_nothing_held() {
    for table in [one_bridge(0x1F), one_bridge_3_3(0x3FF)] {
        let holding = table.report(OWNER, BRIDGE).unwrap();
        assert_eq!((holding.held, holding.supported), (0, 0));
    }
}
