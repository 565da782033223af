//! Rules of document 01 misread: the MCFG table and the starting list.

use reference::byte_sum;
use trials::call::{Call, Start};
use trials::given::{Given, Handed};
use trials::mcfg;
use trials::places;
use trials::row::{CONVENTIONAL, EXPRESS};
use trials::service::{Pair, Service};

use crate::wrong::{Wrong, found, instead, pair};

/// The reference with one more reason to refuse a start, which comes first.
fn refused(wrong: &mut Wrong, call: &mut Call, number: u8, breaks: fn(&Start) -> bool) -> Given {
    match call {
        Call::Start(start) if breaks(start) => Given {
            number,
            handed: Handed::zeros(call),
        },
        _ => wrong.reference.call(call),
    }
}

/// The start that shows the wrong rule by itself, with so many bytes and rows.
pub fn found_start(make: fn() -> Pair, lengths: (usize, usize)) -> Start {
    let found = found(make);
    let [Call::Start(start)] = &found.list[..] else {
        panic!("{}", found.report());
    };
    let has = (start.mcfg.lent().len(), start.rows.lent().len());
    assert_eq!(has, lengths, "{}", found.report());
    start.clone()
}

/// Takes this revision for 1; the sum of the bytes stays.
fn takes_revision<const REVISION: u8>(wrong: &mut Wrong, call: &mut Call) -> Given {
    instead(wrong, call, |call| {
        if let Call::Start(Start { mcfg, .. }) = call
            && let Some([revision, checksum]) = mcfg.lent_mut().get_mut(8..10)
            && *revision == REVISION
        {
            *revision = 1;
            *checksum = checksum.wrapping_add(REVISION - 1);
        }
    })
}

#[test]
fn mcfg_revision_2_accepted() {
    found_start(|| pair(takes_revision::<2>), (44, 0));
}

#[test]
fn mcfg_revision_3_accepted() {
    found_start(|| pair(takes_revision::<3>), (44, 0));
}

fn sums_modulo_128(call: &mut Call) {
    if let Call::Start(Start { mcfg, .. }) = call
        && byte_sum(mcfg.lent()) == 128
    {
        mcfg::mend_checksum(mcfg.lent_mut());
    }
}

/// A table with a wrong sum is not made shorter, since a shorter one has its checksum mended.
#[test]
fn a_sum_modulo_128() {
    let found = found(|| pair(|wrong, call| instead(wrong, call, sums_modulo_128)));
    let [Call::Start(start)] = &found.list[..] else {
        panic!("{}", found.report());
    };
    assert_eq!(
        (byte_sum(start.mcfg.lent()), start.rows.lent().len()),
        (128, 0)
    );
}

fn has_reserved_bytes(start: &Start) -> bool {
    let Some((header, entries)) = start.mcfg.lent().split_at_checked(mcfg::HEADER) else {
        return false;
    };
    let (entries, _) = entries.as_chunks::<{ mcfg::ENTRY }>();
    let reserved = entries.iter().flat_map(|entry| &entry[12..]);
    reserved.chain(&header[36..]).any(|byte| *byte != 0)
}

#[test]
fn reserved_bytes_that_must_be_0() {
    let make = || pair(|wrong, call| refused(wrong, call, 6, has_reserved_bytes));
    let start = found_start(make, (44, 0));
    let after_checksum = start.mcfg.lent()[10..].iter();
    assert_eq!(after_checksum.filter(|byte| **byte != 0).count(), 1);
}

/// Where one window ends, another starts; an end of 0 stands for 2^64.
fn has_touching_windows(start: &Start) -> bool {
    let entries = mcfg::read(start.mcfg.lent());
    let windows = entries.iter().map(|at| places::edges(at, at.start, at.end));
    let (starts, ends): (Vec<_>, Vec<_>) = windows.map(|[start, end]| (start, end)).unzip();
    ends.iter().any(|end| *end != 0 && starts.contains(end))
}

#[test]
fn windows_that_may_not_touch() {
    let make = || pair(|wrong, call| refused(wrong, call, 6, has_touching_windows));
    found_start(make, (mcfg::HEADER + 2 * mcfg::ENTRY, 0));
}

#[test]
fn refusal_7_for_65_rows_before_6() {
    let make = || pair(|wrong, call| refused(wrong, call, 7, |start| start.rows.lent().len() > 64));
    found_start(make, (0, 65));
}

fn permits_a_conventional_row_more(call: &mut Call) {
    if let Call::Start(start) = call {
        let rows = start.rows.lent_mut().iter_mut();
        rows.filter(|row| row.kind == CONVENTIONAL && row.permitted & !0x0E == 0)
            .for_each(|row| row.kind = EXPRESS);
    }
}

#[test]
fn a_conventional_row_that_permits_bits_1_to_3() {
    let make = || pair(|wrong, call| instead(wrong, call, permits_a_conventional_row_more));
    let start = found_start(make, (60, 1));
    assert!(matches!(start.rows.lent()[0].permitted, 0x04 | 0x08));
}
