//! Programs that misread document 02, d: what a bit needs, which support counts and is stored, and by which edition a row answers.

use trials::call::Call;
use trials::editions::{Asked, EDITION_3_3, OLD_EDITION, Outcome, SUPPORT_7, known_support};
use trials::exhaustive::{granting, starts};
use trials::given::Given;
use trials::requests::{QUERY, dword};
use trials::row::Row;
use trials::service::Pair;

use crate::needs::{Needs, available, granting, kept, largest, list};
use crate::regranted::{regranted, regranted_by_rows};
use crate::wrong::{Wrong, found, instead, last_osc, pair, tried};

/// Whether the rule is found among every permitted, held and requested set of these bits.
fn differs(bits: &[u32], edition: u8, rule: fn(&Asked) -> Outcome) -> bool {
    granting::sets_of(bits, edition, &rule).is_err()
}

/// The DWORDs of the last call in the list that shows the wrong rule: calls with these names, on a row of this edition.
fn found_dwords(make: fn() -> Pair, edition: u8, names: &[&str]) -> [u32; 3] {
    let found = found(make);
    let osc = last_osc(&found, names);
    match &found.list[0] {
        Call::Start(start) => assert_eq!(start.rows.lent()[0].edition, edition),
        _ => panic!("{}", found.report()),
    }
    [0, 1, 2].map(|index| dword(osc.capabilities.lent(), index))
}

#[test]
fn the_right_rule_is_not_found() {
    let right = || pair(|wrong, call| regranted(wrong, call, Asked::outcome));
    assert!(tried(right).is_ok());
}

/// The rule where one bit of an edition has other needs.
fn with_needs(asked: &Asked, edition: u8, bit: usize, needs: Needs) -> Outcome {
    let mut list = list(asked.edition);
    if asked.edition == edition {
        list[bit] = needs;
    }
    granting(asked, largest(&list, asked))
}

fn aer_without_containment(asked: &Asked) -> Outcome {
    with_needs(asked, EDITION_3_3, 3, [0x10, 0])
}

#[test]
fn bit_3_granted_without_bit_7() {
    assert!(differs(&[3, 4, 7], EDITION_3_3, aer_without_containment));
    let make = || pair(|wrong, call| regranted(wrong, call, aer_without_containment));
    let dwords = found_dwords(make, EDITION_3_3, &["start", "osc"]);
    assert_eq!(dwords, [0, 0, 0x18]);
}

fn containment_without_support(asked: &Asked) -> Outcome {
    with_needs(asked, EDITION_3_3, 7, [0x18, 0])
}

#[test]
fn bit_7_granted_without_support_bit_7() {
    assert!(differs(
        &[3, 4, 7],
        EDITION_3_3,
        containment_without_support
    ));
    let make = || pair(|wrong, call| regranted(wrong, call, containment_without_support));
    let dwords = found_dwords(make, EDITION_3_3, &["start", "osc"]);
    assert_eq!(dwords, [0, 0, 0x98]);
}

fn shpc_without_capability(asked: &Asked) -> Outcome {
    with_needs(asked, EDITION_3_3, 1, [0, 0])
}

#[test]
fn bit_1_granted_without_bit_4_in_3_3() {
    assert!(differs(&[1, 4], EDITION_3_3, shpc_without_capability));
    let make = || pair(|wrong, call| regranted(wrong, call, shpc_without_capability));
    let dwords = found_dwords(make, EDITION_3_3, &["start", "osc"]);
    assert_eq!(dwords, [0, 0, 0x02]);
}

fn shpc_with_capability(asked: &Asked) -> Outcome {
    with_needs(asked, OLD_EDITION, 1, [0x10, 0])
}

#[test]
fn bit_1_not_granted_without_bit_4_in_the_old_edition() {
    assert!(differs(&[1, 4], OLD_EDITION, shpc_with_capability));
    let make = || pair(|wrong, call| regranted(wrong, call, shpc_with_capability));
    let dwords = found_dwords(make, OLD_EDITION, &["start", "osc"]);
    assert_eq!(dwords, [0, 0, 0x02]);
}

/// A need counts only where it is permitted, as on a conventional row of edition 3.3.
fn forbidden_capability_not_needed(asked: &Asked) -> Outcome {
    match asked.permitted & 0x10 {
        0 => shpc_without_capability(asked),
        _ => asked.outcome(),
    }
}

#[test]
fn bit_1_granted_where_bit_4_is_not_permitted() {
    assert!(differs(
        &[1, 4],
        EDITION_3_3,
        forbidden_capability_not_needed
    ));
    let make = || pair(|wrong, call| regranted(wrong, call, forbidden_capability_not_needed));
    let dwords = found_dwords(make, EDITION_3_3, &["start", "osc"]);
    assert_eq!(dwords, [0, 0, 0x02]);
}

/// Begins with the held bits and adds those whose needs are there.
fn smallest(asked: &Asked) -> Outcome {
    let list = list(asked.edition);
    let available = available(&list, asked);
    let mut set = available & asked.held;
    for _ in 0..list.len() {
        for bit in (0..list.len()).map(|bit| 1 << bit) {
            set |= available & bit & kept(&list, asked, set | bit);
        }
    }
    granting(asked, set)
}

#[test]
fn the_smallest_set_granted() {
    assert!(differs(&[3, 4, 7], EDITION_3_3, smallest));
    assert!(!differs(&[0, 1, 2, 3, 4], OLD_EDITION, smallest));
    let make = || pair(|wrong, call| regranted(wrong, call, smallest));
    let dwords = found_dwords(make, EDITION_3_3, &["start", "osc"]);
    assert_eq!(dwords, [0, SUPPORT_7, 0x98]);
}

/// Takes out the bits that lack something, and not those that then lack one of these.
fn one_round(asked: &Asked) -> Outcome {
    let list = list(asked.edition);
    granting(asked, kept(&list, asked, available(&list, asked)))
}

#[test]
fn one_round_of_dropping() {
    assert!(differs(&[3, 4, 7], EDITION_3_3, one_round));
    assert!(!differs(&[0, 1, 2, 3, 4], OLD_EDITION, one_round));
    let make = || pair(|wrong, call| regranted(wrong, call, one_round));
    let dwords = found_dwords(make, EDITION_3_3, &["start", "osc"]);
    assert_eq!(dwords, [0, 0, 0x98]);
}

fn held_bits_need_again(asked: &Asked) -> Outcome {
    let new = Asked {
        permitted: asked.permitted | asked.held,
        held: 0,
        ..*asked
    };
    match asked.edition {
        EDITION_3_3 => granting(asked, new.granted()),
        _ => asked.outcome(),
    }
}

#[test]
fn a_held_bit_that_needs_its_needs_again() {
    assert!(differs(&[0, 4], EDITION_3_3, held_bits_need_again));
    let make = || pair(|wrong, call| regranted(wrong, call, held_bits_need_again));
    let [_, _, control] = found_dwords(make, EDITION_3_3, &["start", "osc", "osc"]);
    assert_eq!(control.count_ones(), 1);
}

/// No row of the old edition that starts permits bit 5, so this shows in the sets alone.
fn old_rows_know_bit_5(asked: &Asked) -> Outcome {
    match asked.edition {
        EDITION_3_3 => asked.outcome(),
        _ => {
            let bit_5 = asked.requested & 0x20 & (asked.held | asked.permitted);
            granting(asked, asked.granted() | bit_5)
        }
    }
}

#[test]
fn bit_5_granted_on_an_old_row() {
    assert!(differs(&[4, 5], OLD_EDITION, old_rows_know_bit_5));
    assert!(granting::old_sets(&old_rows_know_bit_5).is_err());
}

/// With other known support bits of an edition.
fn storing(asked: &Asked, edition: u8, known: u32) -> Outcome {
    match asked.edition == edition {
        true => asked.outcome_with(asked.granted(), known),
        false => asked.outcome(),
    }
}

fn stores_support_whole(asked: &Asked) -> Outcome {
    asked.outcome_with(asked.granted(), u32::MAX)
}

#[test]
fn the_support_dword_stored_whole() {
    assert!(differs(&[0], OLD_EDITION, stores_support_whole));
    assert!(differs(&[0], EDITION_3_3, stores_support_whole));
    let make = || pair(|wrong, call| regranted(wrong, call, stores_support_whole));
    let [_, support, _] = found_dwords(make, OLD_EDITION, &["start", "osc"]);
    assert_eq!((support & !0x1F).count_ones(), 1);
    assert_eq!(support & 0x1F, 0);
}

#[test]
fn support_bit_8_not_known() {
    let rule = |asked: &Asked| storing(asked, EDITION_3_3, 0xFF);
    assert!(differs(&[0], EDITION_3_3, rule));
    let make =
        || pair(|wrong, call| regranted(wrong, call, |asked| storing(asked, EDITION_3_3, 0xFF)));
    let dwords = found_dwords(make, EDITION_3_3, &["start", "osc"]);
    assert_eq!(dwords, [0, 0x100, 0]);
}

#[test]
fn support_bit_9_stored() {
    let rule = |asked: &Asked| storing(asked, EDITION_3_3, 0x3FF);
    assert!(differs(&[0], EDITION_3_3, rule));
    let make =
        || pair(|wrong, call| regranted(wrong, call, |asked| storing(asked, EDITION_3_3, 0x3FF)));
    let dwords = found_dwords(make, EDITION_3_3, &["start", "osc"]);
    assert_eq!(dwords, [0, 0x200, 0]);
}

#[test]
fn support_bits_5_to_8_kept_on_an_old_row() {
    let rule = |asked: &Asked| storing(asked, OLD_EDITION, known_support(EDITION_3_3));
    assert!(differs(&[0], OLD_EDITION, rule));
    let make =
        || pair(|wrong, call| regranted(wrong, call, |asked| storing(asked, OLD_EDITION, 0x1FF)));
    let [_, support, control] = found_dwords(make, OLD_EDITION, &["start", "osc"]);
    assert_eq!((support & 0x1E0).count_ones(), 1);
    assert_eq!((support & !0x1E0, control), (0, 0));
}

fn forgets_support(asked: &Asked) -> Outcome {
    let nothing_before = Asked {
        supported: 0,
        ..*asked
    };
    granting(asked, nothing_before.granted())
}

#[test]
fn support_of_earlier_calls_not_counted() {
    assert!(differs(&[3, 4, 7], EDITION_3_3, forgets_support));
    let make = || pair(|wrong, call| regranted(wrong, call, forgets_support));
    let dwords = found_dwords(make, EDITION_3_3, &["start", "osc", "osc"]);
    assert_eq!(dwords, [0, 0, 0x98]);
}

/// Counts what was declared before the call alone.
fn counts_support_once_stored(asked: &Asked) -> Outcome {
    let not_declared = Asked {
        support: 0,
        ..*asked
    };
    granting(asked, not_declared.granted())
}

#[test]
fn the_support_of_a_call_not_counted_for_itself() {
    assert!(differs(&[3, 4, 7], EDITION_3_3, counts_support_once_stored));
    let make = || pair(|wrong, call| regranted(wrong, call, counts_support_once_stored));
    let dwords = found_dwords(make, EDITION_3_3, &["start", "osc"]);
    assert_eq!(dwords, [0, SUPPORT_7, 0x98]);
}

fn counts_no_support_of_a_query(asked: &Asked) -> Outcome {
    match asked.query {
        true => counts_support_once_stored(asked),
        false => asked.outcome(),
    }
}

#[test]
fn the_support_of_a_query_not_counted() {
    let rule = counts_no_support_of_a_query;
    assert!(differs(&[3, 4, 7], EDITION_3_3, rule));
    let make = || pair(|wrong, call| regranted(wrong, call, counts_no_support_of_a_query));
    let dwords = found_dwords(make, EDITION_3_3, &["start", "osc"]);
    assert_eq!(dwords, [QUERY, SUPPORT_7, 0x98]);
}

fn stores_the_support_of_a_query(asked: &Asked) -> Outcome {
    let known = asked.support & known_support(asked.edition);
    Outcome {
        supported: asked.supported | known,
        ..asked.outcome()
    }
}

#[test]
fn the_support_of_a_query_stored() {
    assert!(differs(&[0], OLD_EDITION, stores_the_support_of_a_query));
    assert!(differs(&[0], EDITION_3_3, stores_the_support_of_a_query));
    let make = || pair(|wrong, call| regranted(wrong, call, stores_the_support_of_a_query));
    let dwords = found_dwords(make, OLD_EDITION, &["start", "osc"]);
    assert_eq!(dwords, [QUERY, 1, 0]);
}

/// The rule of another edition for a row.
fn by_edition(asked: &Asked, edition: u8) -> Outcome {
    let other = Asked { edition, ..*asked };
    other.outcome()
}

#[test]
fn every_row_answered_by_the_old_edition() {
    let rule = |asked: &Asked| by_edition(asked, OLD_EDITION);
    assert!(differs(&[0, 4, 5], EDITION_3_3, rule));
    assert!(!differs(&[0, 4, 5], OLD_EDITION, rule));
    let make =
        || pair(|wrong, call| regranted(wrong, call, |asked| by_edition(asked, OLD_EDITION)));
    found_dwords(make, EDITION_3_3, &["start", "osc"]);
}

#[test]
fn every_row_answered_by_edition_3_3() {
    let rule = |asked: &Asked| by_edition(asked, EDITION_3_3);
    assert!(differs(&[1, 4], OLD_EDITION, rule));
    assert!(!differs(&[1, 4], EDITION_3_3, rule));
    let make =
        || pair(|wrong, call| regranted(wrong, call, |asked| by_edition(asked, EDITION_3_3)));
    found_dwords(make, OLD_EDITION, &["start", "osc"]);
}

/// Two rows of different editions and a call on the second show the wrong rule; it is found exhaustively too.
fn found_on_two_rows(make: fn() -> Pair) {
    let found = found(make);
    let [Call::Start(start), Call::Osc(osc)] = &found.list[..] else {
        panic!("{}", found.report());
    };
    let [first, second] = start.rows.lent() else {
        panic!("{}", found.report());
    };
    assert_ne!(first.edition, second.edition);
    assert_eq!(osc.bridge, 1);
    assert!(starts::changed_rows(make).is_err());
}

fn by_the_first_row(rows: &[Row], _: usize, asked: &Asked) -> Outcome {
    by_edition(asked, rows[0].edition)
}

#[test]
fn the_edition_of_row_0_for_every_row() {
    found_on_two_rows(|| pair(|wrong, call| regranted_by_rows(wrong, call, by_the_first_row)));
}

fn by_the_row_before(rows: &[Row], bridge: usize, asked: &Asked) -> Outcome {
    by_edition(asked, rows[bridge.saturating_sub(1)].edition)
}

#[test]
fn the_edition_of_the_row_before() {
    found_on_two_rows(|| pair(|wrong, call| regranted_by_rows(wrong, call, by_the_row_before)));
}

/// Does not count bits that no edition knows as masked.
fn passes_over_bit_10(wrong: &mut Wrong, call: &mut Call) -> Given {
    instead(wrong, call, |call| {
        if let Call::Osc(osc) = call
            && let Some(control) = osc.capabilities.lent_mut().get_mut(9)
        {
            *control &= !0x04;
        }
    })
}

#[test]
fn status_0_where_bit_10_alone_is_masked() {
    let osc = last_osc(&found(|| pair(passes_over_bit_10)), &["start", "osc"]);
    assert_eq!(dword(osc.capabilities.lent(), 2), 0x400);
}
