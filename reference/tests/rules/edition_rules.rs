//! Document 02, d: edition 3.3 of the control field beside the old one.

use crate::build::*;
use reference::{BridgeNumber, BridgeRow, Holding, Table, granted};

/// What a bridge of the owner holds: its held and its supported bits.
fn holds(table: &Table, bridge: BridgeNumber) -> (u32, u32) {
    let Holding { held, supported } = table.report(OWNER, bridge).unwrap();
    (held, supported)
}

/// A taking call on a bridge of edition 3.3 that permits all bits and holds none: S and R, then G and status.
fn taking(support: u32, requested: u32, (expect, status): (u32, u32)) {
    let mut table = one_bridge_3_3(0x3FF);
    let answer = osc(&mut table, 0, support, requested);
    assert_eq!(answer, [status, support, expect], "R {requested:#x}");
    assert_eq!(holds(&table, BRIDGE), (expect, support & 0x1FF));
    let by_rule = granted(EDITION_3_3, 0x3FF, 0, 0, support, requested);
    assert_eq!(by_rule, expect);
}

/// Table 4-5 and section 4.5.2.4 of document 000: what each bit needs and no more.
#[test]
fn each_bit_with_exactly_what_it_needs() {
    for (support, requested) in [
        (0, 0x011),
        (0, 0x012),
        (0, 0x014),
        (0x80, 0x098),
        (0, 0x010),
        (0, 0x030),
        (0, 0x040),
        (0x80, 0x098),
        (0, 0x110),
        (0, 0x200),
    ] {
        taking(support, requested, (requested, 0));
    }
}

#[test]
fn each_bit_without_one_of_its_needs() {
    // Bits 0, 1, 2, 5 and 8 without bit 4, whatever is declared.
    for requested in [0x001, 0x002, 0x004, 0x020, 0x100] {
        taking(0, requested, (0, 0x10));
        taking(0x1FF, requested, (0, 0x10));
    }
    // Bit 3 without bit 7.
    taking(0x80, 0x018, (0x010, 0x10));
    // Bit 7 without bit 3.
    taking(0x80, 0x090, (0x010, 0x10));
    // Both without bit 4.
    taking(0x80, 0x088, (0, 0x10));
    // Bit 7 without support bit 7; bit 3 goes with it.
    taking(0x17F, 0x098, (0x010, 0x10));
}

/// Bits 3 and 7 need each other, so what one of them lacks takes the other with it. Here the other is held by itself, which no table
/// comes to.
#[test]
fn the_needs_of_bits_3_and_7_apart() {
    let rule = |held, support, requested| granted(EDITION_3_3, 0x3FF, held, 0, support, requested);
    // Bit 3 with bit 7 held: bit 4 and bit 7 are still asked for together with it, the support bit is not needed.
    assert_eq!(rule(0x80, 0, 0x98), 0x98);
    assert_eq!(rule(0x80, 0, 0x88), 0x80);
    assert_eq!(rule(0x80, 0, 0x18), 0x10);
    // Bit 7 with bit 3 held.
    assert_eq!(rule(0x08, 0x80, 0x98), 0x98);
    assert_eq!(rule(0x08, 0, 0x98), 0x18);
    assert_eq!(rule(0x08, 0x80, 0x88), 0x08);
    assert_eq!(rule(0x08, 0x80, 0x90), 0x10);
}

#[test]
fn hand_worked_values() {
    taking(0x80, 0x098, (0x098, 0));
    taking(0, 0x098, (0x010, 0x10));
    taking(0x80, 0x018, (0x010, 0x10));
    // Bit 7 goes for its support bit, bit 3 for bit 7.
    taking(0x1F, 0x3FF, (0x377, 0x10));
    // Without bit 4 only bits 6 and 9 are left.
    taking(0x1FF, 0x3EF, (0x240, 0x10));
    taking(0x1FF, 0x3FF, (0x3FF, 0));
    taking(0, 0, (0, 0));
}

/// A row of edition 3.3 that permits what an old one may: no bit 7, so no bit 3.
#[test]
fn permitted_0x1f() {
    let mut table = one_bridge_3_3(0x1F);
    assert_eq!(osc(&mut table, 0, 0x1FF, 0x1F), [0x10, 0x1FF, 0x17]);
    assert_eq!(holds(&table, BRIDGE), (0x17, 0x1FF));
    assert_eq!(granted(EDITION_3_3, 0x1F, 0, 0, 0x1FF, 0x1F), 0x17);
    assert_eq!(granted(EDITION_3_3, 0x1F, 0, 0, 0x1FF, 0x3FF), 0x17);
}

/// All bits asked for and supported, one of them not permitted.
#[test]
fn what_goes_with_a_forbidden_bit() {
    for (forbidden, expect) in [
        (0, 0x3FE),
        (1, 0x3FD),
        (2, 0x3FB),
        (3, 0x377),
        (4, 0x240),
        (5, 0x3DF),
        (6, 0x3BF),
        (7, 0x377),
        (8, 0x2FF),
        (9, 0x1FF),
    ] {
        let mut table = one_bridge_3_3(0x3FF & !(1 << forbidden));
        let answer = osc(&mut table, 0, 0x1FF, 0x3FF);
        assert_eq!(answer, [0x10, 0x1FF, expect], "{forbidden}");
    }
}

#[test]
fn held_bits_need_nothing() {
    let mut table = one_bridge_3_3(0x3FF);
    assert_eq!(osc(&mut table, 0, 0x80, 0x98), [0, 0x80, 0x98]);
    assert_eq!(osc(&mut table, 0, 0, 0x08), [0, 0, 0x08]);
    assert_eq!(holds(&table, BRIDGE), (0x98, 0x80));
    assert_eq!(granted(EDITION_3_3, 0x3FF, 0x98, 0, 0, 0x08), 0x08);
    assert_eq!(osc(&mut table, 0, 0x100, 0x3FF), [0, 0x100, 0x3FF]);
    assert_eq!(holds(&table, BRIDGE), (0x3FF, 0x180));
    for bit in 0..10 {
        let alone = 1 << bit;
        assert_eq!(osc(&mut table, 0, 0, alone), [0, 0, alone]);
        assert_eq!(granted(EDITION_3_3, 0, alone, 0, 0, alone), alone);
        // Nor is a held bit granted that is not asked for.
        assert_eq!(granted(EDITION_3_3, 0, 0x3FF, 0, 0, alone), alone);
    }
    assert_eq!(holds(&table, BRIDGE), (0x3FF, 0x180));
}

/// Document 02, b, holds of both editions: bit 4 held is not enough for a bit that is newly claimed.
#[test]
fn bit_4_must_be_asked_for_together() {
    for bit in [0, 1, 2, 5, 8] {
        let mut table = one_bridge_3_3(0x3FF);
        assert_eq!(osc(&mut table, 0, 0, 0x10), [0, 0, 0x10]);
        let claimed = 1 << bit;
        assert_eq!(osc(&mut table, 0, 0, claimed), [0x10, 0, 0]);
        assert_eq!(holds(&table, BRIDGE), (0x10, 0));
        let both = 0x10 | claimed;
        assert_eq!(osc(&mut table, 0, 0, both), [0, 0, both]);
        assert_eq!(holds(&table, BRIDGE), (both, 0));
    }
    // The support bit of an earlier call counts, its control bits do not.
    let mut table = one_bridge_3_3(0x3FF);
    assert_eq!(osc(&mut table, 0, 0x80, 0x10), [0, 0x80, 0x10]);
    assert_eq!(osc(&mut table, 0, 0, 0x88), [0x10, 0, 0]);
    assert_eq!(osc(&mut table, 0, 0, 0x98), [0, 0, 0x98]);
}

#[test]
fn support_of_an_earlier_call_counts_until_reset() {
    let mut table = one_bridge_3_3(0x3FF);
    assert_eq!(osc(&mut table, 0, 0x80, 0), [0, 0x80, 0]);
    assert_eq!(osc(&mut table, 1, 0, 0x98), [0, 0, 0x98]);
    assert_eq!(osc(&mut table, 0, 0x01, 0x98), [0, 0x01, 0x98]);
    assert_eq!(holds(&table, BRIDGE), (0x98, 0x81));
    assert_eq!(table.reset(OWNER, BRIDGE), Ok(()));
    assert_eq!(holds(&table, BRIDGE), (0, 0));
    assert_eq!(osc(&mut table, 0, 0x01, 0x98), [0x10, 0x01, 0x10]);
    assert_eq!(holds(&table, BRIDGE), (0x10, 0x01));
    assert_eq!(granted(EDITION_3_3, 0x3FF, 0, 0x80, 0, 0x98), 0x98);
}

#[test]
fn no_other_support_bit_counts() {
    // All but bit 7, and those that are not known.
    taking(!0x80, 0x98, (0x10, 0x10));
    taking(!0x1FF, 0x98, (0x10, 0x10));
    taking(0x8000, 0x98, (0x10, 0x10));
    taking(!0x17F, 0x98, (0x98, 0));
    // Nor is an unknown one of an earlier call kept.
    let mut table = one_bridge_3_3(0x3FF);
    assert_eq!(osc(&mut table, 0, !0x1FF, 0), [0, !0x1FF, 0]);
    assert_eq!(holds(&table, BRIDGE), (0, 0));
    assert_eq!(osc(&mut table, 0, 0x17F, 0x98), [0x10, 0x17F, 0x10]);
}

#[test]
fn query_counts_its_support_and_stores_none() {
    let mut table = one_bridge_3_3(0x3FF);
    let before = format!("{table:?}");
    assert_eq!(osc(&mut table, 1, 0x80, 0x98), [0, 0x80, 0x98]);
    assert_eq!(osc(&mut table, 1, 0x1FF, 0x3FF), [0, 0x1FF, 0x3FF]);
    assert_eq!(holds(&table, BRIDGE), (0, 0));
    assert_eq!(osc(&mut table, 1, 0, 0x98), [0x10, 0, 0x10]);
    assert_eq!(format!("{table:?}"), before);
    assert_eq!(osc(&mut table, 0, 0, 0x98), [0x10, 0, 0x10]);
    assert_eq!(holds(&table, BRIDGE), (0x10, 0));
}

#[test]
fn unknown_control_bits() {
    taking(0, 0x400, (0, 0x10));
    taking(0x1FF, 0x7FF, (0x3FF, 0x10));
    taking(0x1FF, !0, (0x3FF, 0x10));
    taking(0, 0x8000_0010, (0x10, 0x10));
    // Bits 5 to 9 are not known in the old edition, whatever is said to be permitted or held.
    assert_eq!(granted(OLD, !0, !0, !0, !0, !0), 0x1F);
    assert_eq!(granted(EDITION_3_3, !0, !0, !0, !0, !0), 0x3FF);
}

#[test]
fn support_that_is_stored() {
    let mut old = one_bridge(0x1F);
    assert_eq!(osc(&mut old, 0, 0x3FF, 0), [0, 0x3FF, 0]);
    assert_eq!(holds(&old, BRIDGE), (0, 0x1F));
    let mut new = one_bridge_3_3(0x3FF);
    assert_eq!(osc(&mut new, 0, 0x3FF, 0), [0, 0x3FF, 0]);
    assert_eq!(holds(&new, BRIDGE), (0, 0x1FF));
}

/// Bit 1, the only one that may be permitted, needs bit 4.
#[test]
fn conventional_row() {
    let conventional = BridgeRow {
        kind: CONVENTIONAL,
        ..row_3_3(0, 255, 0x02)
    };
    let mut table = start(&[(BASE, 0, 0, 255)], &[conventional]).unwrap();
    assert_eq!(osc(&mut table, 0, 0x1FF, 0x12), [0x10, 0x1FF, 0]);
    assert_eq!(osc(&mut table, 0, 0, 0x02), [0x10, 0, 0]);
    assert_eq!(osc(&mut table, 0, 0, 0), [0, 0, 0]);
    assert_eq!(holds(&table, BRIDGE), (0, 0x1FF));
}

/// Rows of both editions and kinds; each with S 0x3FF: R, then G, status and the supported bits after.
#[test]
fn mixed_table() {
    let conventional = |row| BridgeRow {
        kind: CONVENTIONAL,
        ..row
    };
    let rows = [
        row(0, 0, 0x1F),
        row_3_3(1, 1, 0x3FF),
        conventional(row(2, 2, 0x02)),
        conventional(row_3_3(3, 3, 0x02)),
        row_3_3(4, 4, 0x1F),
    ];
    for (requested, expect) in [
        (
            0x3FF,
            [
                (0x1F, 0x10, 0x1F),
                (0x3FF, 0, 0x1FF),
                (0x02, 0x10, 0x1F),
                (0, 0x10, 0x1FF),
                (0x17, 0x10, 0x1FF),
            ],
        ),
        (
            0x18,
            [
                (0x18, 0, 0x1F),
                (0x10, 0x10, 0x1FF),
                (0, 0x10, 0x1F),
                (0, 0x10, 0x1FF),
                (0x10, 0x10, 0x1FF),
            ],
        ),
        (
            0x02,
            [
                (0x02, 0, 0x1F),
                (0, 0x10, 0x1FF),
                (0x02, 0, 0x1F),
                (0, 0x10, 0x1FF),
                (0, 0x10, 0x1FF),
            ],
        ),
        (
            0x98,
            [
                (0x18, 0x10, 0x1F),
                (0x98, 0, 0x1FF),
                (0, 0x10, 0x1F),
                (0, 0x10, 0x1FF),
                (0x10, 0x10, 0x1FF),
            ],
        ),
    ] {
        for order in [[0, 1, 2, 3, 4], [4, 3, 2, 1, 0], [1, 0, 3, 4, 2]] {
            let in_order = order.map(|at: usize| rows[at]);
            let mut table = start(&[(BASE, 0, 0, 255)], &in_order).unwrap();
            for (number, at) in (0..).map(BridgeNumber).zip(order) {
                let (granted, status, supported) = expect[at];
                assert_eq!(holds(&table, number), (0, 0));
                let answer = osc_on(&mut table, number, 0, 0x3FF, requested);
                assert_eq!(answer, [status, 0x3FF, granted]);
                assert_eq!(holds(&table, number), (granted, supported));
            }
            // No call reached another bridge.
            for (number, at) in (0..).map(BridgeNumber).zip(order) {
                let (granted, _, supported) = expect[at];
                assert_eq!(holds(&table, number), (granted, supported));
            }
        }
    }
}

/// The number whose bits of these places are the low bits of `small`.
fn spread<const N: usize>(places: [u32; N], small: u32) -> u32 {
    let set = (0..).zip(places).filter(|(at, _)| small >> at & 1 != 0);
    set.map(|(_, place)| 1 << place).sum()
}

#[test]
fn negotiation_with_the_same_support() {
    let places = [0, 3, 4, 7, 9];
    for bits in 0..1 << 15 {
        let [permitted, before, requested] =
            [bits & 31, bits >> 5 & 31, bits >> 10].map(|small| spread(places, small));
        for (earlier, support) in [(0, 0), (0, 0x80), (0x80, 0)] {
            let mut table = one_bridge_3_3(permitted);
            osc(&mut table, 0, earlier, before);
            let held_before = held(&table);
            let [_, _, offered] = osc(&mut table, 1, support, requested);
            assert_eq!(osc(&mut table, 1, support, offered), [0, support, offered]);
            assert_eq!(osc(&mut table, 0, support, offered), [0, support, offered]);
            assert_eq!(held(&table), held_before | offered);
        }
    }
}

#[test]
fn negotiation_that_leaves_the_support_out() {
    let mut table = one_bridge_3_3(0x3FF);
    assert_eq!(osc(&mut table, 1, 0x80, 0x3FF), [0, 0x80, 0x3FF]);
    assert_eq!(osc(&mut table, 1, 0, 0x3FF), [0x10, 0, 0x377]);
    assert_eq!(osc(&mut table, 1, 0x80, 0x98), [0, 0x80, 0x98]);
    assert_eq!(osc(&mut table, 1, 0, 0x98), [0x10, 0, 0x10]);
    assert_eq!(osc(&mut table, 0, 0, 0x98), [0x10, 0, 0x10]);
    assert_eq!(holds(&table, BRIDGE), (0x10, 0));
}

/// The rule as document 02, d, words it: whether each bit of the set is requested and known and is held, or is permitted and has what it
/// needs. Known are the bits listed, with the control bits and the support bits that each needs.
fn allowed(
    listed: &[(u32, u32, u32)],
    [permitted, held, requested, declared]: [u32; 4],
    set: u32,
) -> bool {
    let known: u32 = listed.iter().map(|&(bit, _, _)| 1 << bit).sum();
    set & !known == 0
        && set & !requested == 0
        && listed.iter().all(|&(bit, control, support)| {
            let has = |bits: u32| bits >> bit & 1 != 0;
            let needs_met = control & !set == 0 && support & !declared == 0;
            !has(set) || has(held) || (has(permitted) && needs_met)
        })
}

/// All subsets tried: the granted set is allowed, and every allowed set lies within it.
#[test]
fn largest_of_all_subsets() {
    let new = [
        (0, 0x10, 0),
        (3, 0x90, 0),
        (4, 0, 0),
        (7, 0x18, 0x80),
        (9, 0, 0),
    ];
    let old = [
        (0, 0x10, 0),
        (1, 0, 0),
        (2, 0x10, 0),
        (3, 0x10, 0),
        (4, 0, 0),
    ];
    for (edition, listed) in [(EDITION_3_3, new), (OLD, old)] {
        let places = listed.map(|(bit, _, _)| bit);
        let subsets: Vec<u32> = (0..32).map(|small| spread(places, small)).collect();
        for bits in 0..1 << 15 {
            let [permitted, held, requested] =
                [bits & 31, bits >> 5 & 31, bits >> 10].map(|small| subsets[small]);
            for (supported, support) in [(0, 0), (0x80, 0), (0, 0x80), (0, !0x80)] {
                let inputs = [permitted, held, requested, (supported | support) & 0x1FF];
                let set = granted(edition, permitted, held, supported, support, requested);
                assert!(allowed(&listed, inputs, set), "{inputs:x?}");
                for &other in &subsets {
                    let within = other & !set == 0;
                    assert!(within || !allowed(&listed, inputs, other), "{inputs:x?}");
                }
            }
        }
    }
}

/// Register values ask for bits 0 and 3 in either edition.
#[test]
fn register_values() {
    let block = express(0xFFFF_FF0F, 0x0009);
    let values = |table: &Table| table.register_values(OWNER, BRIDGE, &block, &[], &[0x0050; 8]);
    let mut table = one_bridge_3_3(0x3FF);
    assert_eq!(osc(&mut table, 0, 0, 0x176), [0, 0, 0x176]);
    assert_eq!(values(&table).unwrap_err().number(), 11);
    // Bits 4 and 6 are cleared, bits 0 and 3 set; in Device Control bit 6 stays.
    assert_eq!(osc(&mut table, 0, 0, 0x11), [0, 0, 0x11]);
    let mut expect = [0x0009; 8];
    expect[4] = 0x0049;
    assert_eq!(values(&table), Ok(expect));
    // With bit 3 the six error registers stay.
    assert_eq!(osc(&mut table, 0, 0x80, 0x98), [0, 0x80, 0x98]);
    let mut expect = [0x0050; 8];
    expect[4..6].copy_from_slice(&[0x0049, 0x0009]);
    assert_eq!(values(&table), Ok(expect));
}
