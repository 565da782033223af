//! _OSC framing, statuses and granting.

use crate::build::*;
use reference::{Holding, Refusal, SessionNumber, Table, granted};

/// Calls with this Count and these lengths; the answer buffer is full or, when refused, untouched.
fn framing(count: u32, uuid: usize, capabilities: usize, answer: usize) -> Result<(), Refusal> {
    let mut table = one_bridge(0x1F);
    let before = format!("{table:?}");
    let mut buffer = vec![UNTOUCHED; answer];
    let uuid = [0; 32].split_at(uuid).0.to_vec();
    let capabilities = vec![0; capabilities];
    let result = table.osc(OWNER, BRIDGE, 1, count, &uuid, &capabilities, &mut buffer);
    assert_eq!(format!("{table:?}"), before);
    let full = buffer.iter().all(|&byte| byte != UNTOUCHED);
    let untouched = buffer.iter().all(|&byte| byte == UNTOUCHED);
    assert!(if result.is_ok() { full } else { untouched });
    result
}

#[test]
fn framing_exactly_when() {
    for count in 0..12 {
        let bytes = 4 * count as usize;
        let right = (1..=8).contains(&count);
        assert_eq!(framing(count, 16, bytes, bytes).is_ok(), right, "{count}");
    }
    for (count, uuid, capabilities, answer) in [
        (3, 15, 12, 12),
        (3, 17, 12, 12),
        (3, 0, 12, 12),
        (3, 16, 11, 12),
        (3, 16, 13, 12),
        (3, 16, 12, 11),
        (3, 16, 12, 16),
        (3, 16, 0, 12),
        (0, 16, 0, 0),
        (0x4000_0000, 16, 0, 0),
        (0x4000_0003, 16, 12, 12),
        (u32::MAX, 16, 12, 12),
    ] {
        let refused = framing(count, uuid, capabilities, answer);
        assert_eq!(refused, Err(Refusal::Framing));
    }
}

#[test]
fn first_status_that_fits() {
    let mut table = one_bridge(0x1F);
    let before = format!("{table:?}");
    let mut wrong = UUID;
    wrong[15] ^= 1;
    let [two, three, four] = [2, 3, 4].map(|count| vec![0xFE; 4 * count]);
    assert_eq!(osc_call(&mut table, 2, &wrong, &two), [4, 0]);
    assert_eq!(osc_call(&mut table, 1, &wrong, &three), [4, 0, 0]);
    assert_eq!(osc_call(&mut table, 2, &UUID, &two), [8, 0]);
    assert_eq!(osc_call(&mut table, 0, &UUID, &three), [8, 0, 0]);
    assert_eq!(osc_call(&mut table, 0x101, &UUID, &three), [8, 0, 0]);
    assert_eq!(osc_call(&mut table, 1, &UUID, &four), [2, 0, 0, 0]);
    assert_eq!(osc_call(&mut table, 1, &UUID, &[0; 4]), [2]);
    assert_eq!(format!("{table:?}"), before);
}

#[test]
fn every_byte_of_the_uuid_counts() {
    let mut table = one_bridge(0x1F);
    for at in 0..16 {
        let mut uuid = UUID;
        uuid[at] ^= 0x80;
        let answer = osc_call(&mut table, 1, &uuid, &dwords(&[0, 0, 0x1F]));
        assert_eq!(answer, [4, 0, 0]);
    }
}

/// The granting rule of the old edition bit by bit, as document 01 words it with what document 02, b, says of bit 4.
fn worded(permitted: u32, held: u32, requested: u32) -> u32 {
    let has = |bits: u32, bit: u32| bits & (1 << bit) != 0;
    let granted = (0..5).filter(|&bit| {
        let bit_4 = has(requested, 4) && (has(held, 4) || has(permitted, 4));
        let free = !matches!(bit, 0 | 2 | 3);
        has(requested, bit) && (has(held, bit) || (has(permitted, bit) && (free || bit_4)))
    });
    granted.map(|bit| 1 << bit).sum()
}

#[test]
fn granting_rule() {
    for bits in 0..1 << 15 {
        let [p, h, r] = [bits & 31, bits >> 5 & 31, bits >> 10];
        for support in [0, !0] {
            let by_rule = |requested| granted(OLD, p, h, support, support, requested);
            assert_eq!(by_rule(r), worded(p, h, r));
            assert_eq!(by_rule(r | !31), worded(p, h, r));
        }
        // A number that is no edition.
        for edition in [2, 255] {
            assert_eq!(granted(edition, p, h, 0, !0, r), worded(p, h, r));
        }
    }
}

#[test]
fn status_support_and_high_bits() {
    let mut table = one_bridge(0x1F);
    assert_eq!(osc(&mut table, !1, !4, 0x8000_0012), [0x10, !4, 0x12]);
    let taken = Holding {
        held: 0x12,
        supported: 0x1B,
    };
    assert_eq!(table.report(OWNER, BRIDGE), Ok(taken));
    assert_eq!(osc(&mut table, !0, 4, 0x11), [0, 4, 0x11]);
    assert_eq!(table.report(OWNER, BRIDGE), Ok(taken));
    assert_eq!(osc(&mut table, 2, 4, 0), [0, 4, 0]);
    assert_eq!(table.report(OWNER, BRIDGE).unwrap().supported, 0x1F);
}

#[test]
fn negotiation() {
    for bits in 0..1 << 15 {
        let [permitted, before, requested] = [bits & 31, bits >> 5 & 31, bits >> 10];
        let mut table = one_bridge(permitted);
        osc(&mut table, 0, 0, before);
        let held_before = held(&table);
        let [_, _, offered] = osc(&mut table, 1, 0, requested);
        assert_eq!(osc(&mut table, 1, 0, offered), [0, 0, offered]);
        assert_eq!(osc(&mut table, 0, 0, offered), [0, 0, offered]);
        assert_eq!(held(&table), held_before | offered);
    }
}

/// Two bridges of two sessions.
fn two_bridges() -> Table {
    let mut second = row(1, 1, 0x1F);
    second.owner = STRANGER;
    start(&[(BASE, 0, 0, 255)], &[row(0, 0, 0x1F), second]).unwrap()
}

#[test]
fn reset_of_one_bridge() {
    let mut table = two_bridges();
    let second = reference::BridgeNumber(1);
    let capabilities = dwords(&[0, 0x15, 0x1F]);
    let mut answer = [0; 12];
    for (session, bridge) in [(OWNER, BRIDGE), (STRANGER, second)] {
        let done = table.osc(session, bridge, 1, 3, &UUID, &capabilities, &mut answer);
        assert_eq!(done, Ok(()));
    }
    assert_eq!(table.reset(OWNER, second), Err(Refusal::NotOwner));
    assert_eq!(table.reset(STRANGER, ABSENT), Err(Refusal::NoSuchBridge));
    assert_eq!(table.reset(OWNER, BRIDGE), Ok(()));
    let [nothing, all] =
        [(0, 0), (0x1F, 0x15)].map(|(held, supported)| Holding { held, supported });
    assert_eq!(table.report(OWNER, BRIDGE), Ok(nothing));
    assert_eq!(table.report(STRANGER, second), Ok(all));
    assert_eq!(
        table.report(SessionNumber(0), second),
        Err(Refusal::NotOwner)
    );
}
