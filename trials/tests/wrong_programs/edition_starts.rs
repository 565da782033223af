//! Programs that misread document 02, d, at start: which editions there are, and which bits a row of each may permit.

use trials::call::{Call, Start};
use trials::editions::{EDITION_3_3, OLD_EDITION, known_control};
use trials::exhaustive::starts;
use trials::given::{Given, Handed};
use trials::row::{CONVENTIONAL, EXPRESS, Row};
use trials::service::{Pair, Reference, Service};

use crate::misread_starts::found_start;
use crate::wrong::{Wrong, found, instead, pair};

/// The reference, started with other rows.
fn with_rows(wrong: &mut Wrong, call: &mut Call, change: fn(&mut Row)) -> Given {
    instead(wrong, call, |call| {
        if let Call::Start(start) = call {
            start.rows.lent_mut().iter_mut().for_each(change);
        }
    })
}

/// The reference, which also refuses a list with such a row.
fn refusing(wrong: &mut Wrong, call: &mut Call, these: fn(&Row) -> bool) -> Given {
    let given = wrong.reference.call(call);
    match call {
        Call::Start(start) if given.number == 0 && start.rows.lent().iter().any(these) => {
            wrong.reference = Reference::new();
            Given {
                number: 7,
                handed: Handed::zeros(call),
            }
        }
        _ => given,
    }
}

/// The one row that shows the wrong rule, which is found exhaustively too.
fn found_row(make: fn() -> Pair) -> Row {
    assert!(starts::editions(make).is_err());
    found_start(make, (60, 1)).rows.lent()[0]
}

fn takes_edition_2<const FOR: u8>(row: &mut Row) {
    if row.edition == 2 {
        row.edition = FOR;
    }
}

#[test]
fn edition_2_taken_as_the_old_one() {
    let make = || pair(|wrong, call| with_rows(wrong, call, takes_edition_2::<OLD_EDITION>));
    assert_eq!(found_row(make).edition, 2);
}

#[test]
fn edition_2_taken_as_3_3() {
    let make = || pair(|wrong, call| with_rows(wrong, call, takes_edition_2::<EDITION_3_3>));
    assert_eq!(found_row(make).edition, 2);
}

fn takes_any_edition(row: &mut Row) {
    if row.edition != OLD_EDITION {
        row.edition = EDITION_3_3;
    }
}

#[test]
fn every_edition_but_0_taken_as_3_3() {
    let make = || pair(|wrong, call| with_rows(wrong, call, takes_any_edition));
    assert!(found_row(make).edition > EDITION_3_3);
}

fn drops_upper_bits(row: &mut Row) {
    row.edition &= 1;
}

#[test]
fn an_edition_narrowed_to_a_bit() {
    let make = || pair(|wrong, call| with_rows(wrong, call, drops_upper_bits));
    assert!(found_row(make).edition > EDITION_3_3);
}

#[test]
fn edition_3_3_refused() {
    let make = || pair(|wrong, call| refusing(wrong, call, |row| row.edition == EDITION_3_3));
    assert_eq!(found_row(make).edition, EDITION_3_3);
}

/// Leaves out the bits that an edition does not know, of those in the mask.
fn permits<const EDITION: u8, const MASK: u32>(row: &mut Row) {
    if row.edition == EDITION && row.kind == EXPRESS {
        row.permitted &= !MASK | known_control(EDITION);
    }
}

#[test]
fn bit_5_permitted_on_an_old_row() {
    let make = || pair(|wrong, call| with_rows(wrong, call, permits::<OLD_EDITION, 0x20>));
    let row = found_row(make);
    assert_eq!((row.edition, row.permitted), (OLD_EDITION, 0x20));
}

#[test]
fn bits_5_to_9_permitted_on_an_old_row() {
    let make = || pair(|wrong, call| with_rows(wrong, call, permits::<OLD_EDITION, 0x3FF>));
    let row = found_row(make);
    assert_eq!((row.edition, row.permitted), (OLD_EDITION, 0x20));
}

#[test]
fn bit_10_permitted_on_a_row_of_3_3() {
    let make = || pair(|wrong, call| with_rows(wrong, call, permits::<EDITION_3_3, 0x400>));
    let row = found_row(make);
    assert_eq!((row.edition, row.permitted), (EDITION_3_3, 0x400));
}

#[test]
fn bit_9_not_permitted_on_a_row_of_3_3() {
    let make = || pair(|wrong, call| refusing(wrong, call, |row| row.permitted & 0x200 != 0));
    let row = found_row(make);
    assert_eq!((row.edition, row.permitted), (EDITION_3_3, 0x200));
}

/// Takes a conventional row that permits these bits at most for an Express one.
fn permits_conventional<const EDITION: u8, const MASK: u32>(row: &mut Row) {
    if row.edition == EDITION && row.kind == CONVENTIONAL && row.permitted & !MASK == 0 {
        row.kind = EXPRESS;
    }
}

#[test]
fn bit_4_permitted_on_a_conventional_row_of_3_3() {
    let make =
        || pair(|wrong, call| with_rows(wrong, call, permits_conventional::<EDITION_3_3, 0x12>));
    let row = found_row(make);
    assert_eq!((row.edition, row.kind), (EDITION_3_3, CONVENTIONAL));
    assert_eq!(row.permitted, 0x10);
}

#[test]
fn every_bit_permitted_on_a_conventional_row_of_3_3() {
    let make =
        || pair(|wrong, call| with_rows(wrong, call, permits_conventional::<EDITION_3_3, 0x3FF>));
    let row = found_row(make);
    assert_eq!((row.edition, row.kind), (EDITION_3_3, CONVENTIONAL));
    assert_eq!(row.permitted.count_ones(), 1);
}

/// Edition 3.3 never grants it there.
fn is_conventional_3_3_with_bit_1(row: &Row) -> bool {
    row.edition == EDITION_3_3 && row.kind == CONVENTIONAL && row.permitted & 2 != 0
}

#[test]
fn bit_1_not_permitted_on_a_conventional_row_of_3_3() {
    let make = || pair(|wrong, call| refusing(wrong, call, is_conventional_3_3_with_bit_1));
    assert!(is_conventional_3_3_with_bit_1(&found_row(make)));
}

/// A start of two rows of different editions shows the wrong rule, by itself or with a call after it; it is found exhaustively too.
fn found_two_rows(make: fn() -> Pair) {
    assert!(starts::changed_rows(make).is_err());
    let found = found(make);
    let [Call::Start(start), ..] = &found.list[..] else {
        panic!("{}", found.report());
    };
    let [first, second] = start.rows.lent() else {
        panic!("{}", found.report());
    };
    assert_ne!(first.edition, second.edition);
}

/// The rows, each with the edition of another.
fn with_editions(wrong: &mut Wrong, call: &mut Call, of: fn(usize) -> usize) -> Given {
    instead(wrong, call, |call| {
        if let Call::Start(Start { rows, .. }) = call {
            let editions: Vec<u8> = rows.lent().iter().map(|row| row.edition).collect();
            for (index, row) in rows.lent_mut().iter_mut().enumerate() {
                row.edition = editions[of(index)];
            }
        }
    })
}

#[test]
fn rows_started_with_the_edition_of_row_0() {
    found_two_rows(|| pair(|wrong, call| with_editions(wrong, call, |_| 0)));
}

#[test]
fn rows_started_with_the_edition_of_the_row_before() {
    found_two_rows(|| {
        pair(|wrong, call| with_editions(wrong, call, |index| index.saturating_sub(1)))
    });
}
