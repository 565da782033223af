//! Every line of document 01's bench sheet, and the value that document 02, f, works out.

use crate::build::*;
use reference::{Masks, Refusal, find_record, granted};

/// One granting line: P, H, R, then G, status and the held bits after.
fn granting(permitted: u32, held_before: u32, requested: u32, expect: (u32, u32, u32)) {
    let mut table = holding(permitted, held_before);
    let [status, support, control] = osc(&mut table, 0, 0x1F, requested);
    assert_eq!((control, status, held(&table)), expect);
    assert_eq!(support, 0x1F);
    let by_rule = granted(OLD, permitted, held_before, 0, 0x1F, requested);
    assert_eq!(by_rule, expect.0);
}

#[test]
fn query_bytes() {
    let mut table = one_bridge(0x1F);
    let capabilities = [1, 0, 0, 0, 0x1F, 0, 0, 0, 0x1F, 0, 0, 0];
    let mut answer = [UNTOUCHED; 12];
    let done = table.osc(OWNER, BRIDGE, 1, 3, &UUID, &capabilities, &mut answer);
    assert_eq!(done, Ok(()));
    assert_eq!(answer, [0, 0, 0, 0, 0x1F, 0, 0, 0, 0x1F, 0, 0, 0]);
    assert_eq!(held(&table), 0);
}

#[test]
fn dependent_bits_without_bit_4() {
    granting(0x1F, 0, 0x0D, (0, 0x10, 0));
}

#[test]
fn bit_4_forbidden() {
    granting(0x0F, 0, 0x1F, (0x02, 0x10, 0x02));
}

#[test]
fn bit_4_held_and_not_asked_for() {
    granting(0x1F, 0x10, 0x01, (0, 0x10, 0x10));
}

#[test]
fn unknown_bit() {
    granting(0x1F, 0, 0x3F, (0x1F, 0x10, 0x1F));
}

#[test]
fn held_bits_stay() {
    granting(0x1F, 0x1F, 0x02, (0x02, 0, 0x1F));
}

#[test]
fn place_to_address() {
    let table = one_bridge(0);
    let address = table.address(OWNER, BRIDGE, 1, 2, 3, 0x10, 1);
    assert_eq!(address, Ok(0xE011_3010));
}

#[test]
fn window_ends_at_2_to_64() {
    assert!(start(&[(0xFFFF_FFFF_F000_0000, 0, 0, 255)], &[]).is_ok());
}

#[test]
fn window_runs_past_2_to_64() {
    let base = 0xFFFF_FFFF_F010_0000;
    let past = start(&[(base, 0, 0, 255)], &[]);
    assert_eq!(past.unwrap_err(), Refusal::Mcfg);
    assert!(start(&[(base, 0, 0, 254)], &[]).is_ok());
}

/// The masks of the starred AND/OR line.
const STARRED: Masks = Masks {
    and: 0xFFFF_FFF0,
    or: 0x6,
};

/// A fact of the formula by itself.
#[test]
fn and_then_or() {
    assert_eq!(STARRED.new_value(0x2110), 0x2116);
}

/// Document 02, h.
#[test]
fn no_sound_block_carries_that_pair() {
    let block = express(STARRED.and, STARRED.or);
    assert_eq!(find_record(&block, &[], 2), Err(Refusal::RecordBlock));
    let table = holding(0x1F, 0x11);
    let values = table.register_values(OWNER, BRIDGE, &block, &[], &[0x2110; 8]);
    assert_eq!(values, Err(Refusal::RecordBlock));
}

/// The same result by masks that have a meaning: bits 1 and 2 set, bits 0 and 3 cleared.
#[test]
fn and_then_or_in_a_block() {
    let table = holding(0x1F, 0x11);
    let block = express(0xFFFF_FFF6, 0x6);
    let values = table.register_values(OWNER, BRIDGE, &block, &[], &[0x2119; 8]);
    assert_eq!(values, Ok([0x2116; 8]));
}

#[test]
fn payload_sizes_stay() {
    let table = holding(0x1F, 0x11);
    let block = express(0x5020, 0x5020);
    let values = table.register_values(OWNER, BRIDGE, &block, &[], &[0x2810; 8]);
    let mut expect = [0x5020; 8];
    expect[4] = 0x2000;
    assert_eq!(values, Ok(expect));
}

#[test]
fn block_of_42_bytes() {
    let block: [u8; 42] = [
        0x00, 0x14, 0x00, 0x01, 0, 0, 0, 0x08, 0, 0, 0, 0x40, 0, 0, 0, 0x01, 0, 0, 0, 0, 0, 0, 0,
        0x01, 0x10, 0x00, 0x01, 0, 0, 0, 0x03, 0, 0, 0, 0x04, 0, 0, 0, 0x07, 0, 0, 0,
    ];
    assert_eq!(find_record(&block, &[], 0), Ok(&block[..23]));
    assert_eq!(find_record(&block, &[], 1), Ok(&block[23..]));
    assert_eq!(find_record(&block, &[], 2), Err(Refusal::NoRecord));
}

#[test]
fn count_8_and_9() {
    let mut table = one_bridge(0x1F);
    let answer = osc_call(&mut table, 1, &UUID, &[0xFF; 32]);
    assert_eq!(answer, [0x02, 0, 0, 0, 0, 0, 0, 0]);
    let mut answer = [UNTOUCHED; 36];
    let refused = table.osc(OWNER, BRIDGE, 1, 9, &UUID, &[0xFF; 36], &mut answer);
    assert_eq!(refused, Err(Refusal::Framing));
    assert_eq!(answer, [UNTOUCHED; 36]);
}

#[test]
fn rows_64_and_65() {
    let rows: Vec<_> = (0..65).map(|bus| row(bus, bus, 0)).collect();
    let table = start(&[(BASE, 0, 0, 255)], &rows[..64]).unwrap();
    assert_eq!(table.len(), 64);
    let refused = start(&[(BASE, 0, 0, 255)], &rows);
    assert_eq!(refused.unwrap_err(), Refusal::Rows);
}

#[test]
fn offset_4092_and_4094() {
    let table = one_bridge(0);
    let address = |offset| table.address(OWNER, BRIDGE, 0, 0, 0, offset, 4);
    assert_eq!(address(4092), Ok(BASE + 4092));
    assert_eq!(address(4094), Err(Refusal::BadPlace));
}

#[test]
fn empty_blocks() {
    for record_type in 0..=256 {
        let found = find_record(&[], &[], record_type);
        assert_eq!(found, Err(Refusal::NoRecord));
    }
}

#[test]
fn tag_0_length_3() {
    let block = field(0, &[1, 0, 0]);
    assert_eq!(find_record(&block, &[], 0), Err(Refusal::RecordBlock));
}
