//! Wrong granting rules of the old edition: what new bits 0, 2 and 3 need of bit 4, by document 02, b.

use trials::editions::{Asked, EDITION_3_3, OLD_EDITION, Outcome, known_support};
use trials::exhaustive::granting;
use trials::requests::dword;
use trials::service::Pair;

use crate::regranted::regranted;
use crate::wrong::{found, last_osc, pair};

const BIT_4: u32 = 0x10;
const DEPENDENT: u32 = 0x0D;

/// The granting rule; bit 4 of `deciding` says whether new bits 0, 2 and 3 may be granted.
fn granted(permitted: u32, held: u32, requested: u32, deciding: u32) -> u32 {
    let grantable = match deciding & BIT_4 {
        0 => permitted & !DEPENDENT,
        _ => permitted,
    };
    requested & 0x1F & (held | grantable)
}

/// Compares a rule of the permitted, held and requested bits on every set.
fn compared(rule: fn(u32, u32, u32) -> u32) -> Result<u64, String> {
    granting::old_sets(&|asked| {
        let granted = rule(asked.permitted, asked.held, asked.requested);
        asked.outcome_with(granted, known_support(OLD_EDITION))
    })
}

#[test]
fn the_granting_rule_holds_of_every_set() {
    compared(|p, h, r| granted(p, h, r, r & (p | h))).unwrap();
}

#[test]
fn wrong_granting_rules_are_found_among_every_set() {
    let nothing_needed = |p, h, r| granted(p, h, r, BIT_4);
    let held_is_enough = |p, h, r| granted(p, h, r, h | (r & p));
    let requested_is_enough = |p, h, r| granted(p, h, r, r);
    let only_permitted_counts = |p, h, r| granted(p, h, r, r & p);
    let held_bits_need_it = |p, h, r| granted(p | h, 0, r, r & (p | h));
    assert!(compared(nothing_needed).is_err());
    assert!(compared(held_is_enough).is_err());
    assert!(compared(requested_is_enough).is_err());
    assert!(compared(only_permitted_counts).is_err());
    assert!(compared(held_bits_need_it).is_err());
}

/// Two _OSC calls show the wrong rule, of which the second asks for bit 0, 2 or 3 and not for bit 4.
fn found_without_bit_4(make: fn() -> Pair) {
    let osc = last_osc(&found(make), &["start", "osc", "osc"]);
    let control = dword(osc.capabilities.lent(), 2);
    assert_eq!(control & BIT_4, 0);
    assert_eq!((control & DEPENDENT).count_ones(), 1);
}

/// Another granted set on rows of the old edition.
fn regranted_old(asked: &Asked, granted: u32) -> Outcome {
    match asked.edition {
        EDITION_3_3 => asked.outcome(),
        _ => asked.outcome_with(granted, known_support(OLD_EDITION)),
    }
}

fn refuses_held_bits_without_bit_4(asked: &Asked) -> Outcome {
    let granted = match asked.requested & BIT_4 {
        0 => asked.granted() & !DEPENDENT,
        _ => asked.granted(),
    };
    regranted_old(asked, granted)
}

#[test]
fn a_held_bit_refused_because_bit_4_was_left_out() {
    found_without_bit_4(|| {
        pair(|wrong, call| regranted(wrong, call, refuses_held_bits_without_bit_4))
    });
}

/// Asks for bit 4 too where it is held, and leaves it out of the answer.
fn counts_a_held_bit_4(asked: &Asked) -> Outcome {
    let with_bit_4 = Asked {
        requested: asked.requested | (asked.held & BIT_4),
        ..*asked
    };
    regranted_old(asked, with_bit_4.granted() & asked.requested)
}

#[test]
fn a_new_bit_granted_on_a_bit_4_held_from_earlier() {
    found_without_bit_4(|| pair(|wrong, call| regranted(wrong, call, counts_a_held_bit_4)));
}
