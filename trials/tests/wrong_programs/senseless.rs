//! Pairs of masks that are misjudged (document 02, h). Each program is the reference with one rule changed.

use trials::blocks::{self, senseless_bits};
use trials::call::{Call, Report};
use trials::exhaustive::{masks, registers};
use trials::given::{Given, Handed};
use trials::part::Part;
use trials::random_trials::Found;
use trials::service::{Pair, Service};
use trials::settings::MASKS;

use crate::writer::{RIGHT, Rules, found_in, written, wrongly};
use crate::wrong::{Wrong, found, instead, pair, short_names, tried};

const AER: u32 = 1 << 3;
const EXPRESS_BYTES: usize = 71;

/// Whether the pair of a register is senseless.
type Senseless = fn(usize, [u32; 2]) -> bool;

fn never(_: usize, _: [u32; 2]) -> bool {
    false
}

/// The reference, to which the pairs of blocks are senseless by this rule.
fn read(wrong: &mut Wrong, call: &mut Call, senseless: Senseless) -> Given {
    instead(wrong, call, |call| {
        for part in call.parts() {
            if let ("slot" | "bridge_block", Part::Bytes(block)) = part {
                blocks::each_express(block.lent_mut(), |revision, masks| {
                    if revision == 1 {
                        rejudge(masks, senseless);
                    }
                });
            }
        }
    })
}

/// Makes pairs senseless where they are so by this rule, and mends the others.
fn rejudge(masks: &mut [u32], senseless: Senseless) {
    let (pairs, _) = masks.as_chunks_mut();
    for (register, pair) in pairs.iter_mut().enumerate() {
        match (senseless(register, *pair), senseless_bits(*pair) != 0) {
            (true, false) => *pair = [0, 1],
            (false, true) => blocks::mend(pair),
            _ => {}
        }
    }
}

/// A program that reads by a rule, and one that writes by it.
macro_rules! judging {
    ($senseless:expr) => {{
        let reads: fn() -> Pair = || pair(|wrong, call| read(wrong, call, $senseless));
        let writes: fn() -> Pair = wrongly!(senseless: $senseless);
        [reads, writes]
    }};
}

#[test]
fn the_rule_holds_of_every_pair() {
    for right in judging!(|_, pair| senseless_bits(pair) != 0) {
        assert!(tried(right).is_ok());
        masks::pairs(right).unwrap();
        registers::bits(right).unwrap();
    }
}

/// A type 2 record that shows a wrong rule: what is written, or all of the block that is read. An exhaustive comparison shows the rule too.
fn found_record(make: fn() -> Pair) -> (Box<Found>, Vec<u8>) {
    assert!(masks::pairs(make).is_err());
    let found = found(make);
    let record = match found.list.last() {
        Some(Call::FindRecord(search)) => [search.slot.lent(), search.bridge_block.lent()].concat(),
        Some(Call::RegisterValues(asked)) => {
            [asked.slot.lent(), asked.bridge_block.lent()].concat()
        }
        Some(Call::WriteRecords(write)) => {
            blocks::numbers_field(2, 1, &write.settings.values[MASKS])
        }
        _ => panic!("{}", found.report()),
    };
    assert_eq!(record.len(), EXPRESS_BYTES, "{}", found.report());
    (found, record)
}

/// The one mask that is not 0, if there is one: its place and what it is.
fn only_mask(masks: &[u32]) -> Option<(usize, u32)> {
    let masks = masks.iter().copied().enumerate();
    let mut others = masks.filter(|(_, mask)| *mask != 0);
    let first = others.next();
    assert_eq!(others.next(), None, "beside {first:x?}");
    first
}

/// The one mask that is not 0 in the record that each of two programs misjudges.
fn found_masks([reads, writes]: [fn() -> Pair; 2]) -> [Option<(usize, u32)>; 2] {
    let (_, record) = found_record(reads);
    let read = blocks::numbers(&record);
    let written = found_in(0, masks::pairs, writes).values;
    [only_mask(&read), only_mask(&written[MASKS])]
}

fn not_tested<const REGISTER: usize>() -> [fn() -> Pair; 2] {
    judging!(|register, pair| register != REGISTER && senseless_bits(pair) != 0)
}

/// The first, those of Device Control and Link Control, and the last among them.
#[test]
fn each_pair_not_tested() {
    let programs = [
        not_tested::<0>(),
        not_tested::<1>(),
        not_tested::<2>(),
        not_tested::<3>(),
        not_tested::<4>(),
        not_tested::<5>(),
        not_tested::<6>(),
        not_tested::<7>(),
    ];
    for (register, programs) in programs.into_iter().enumerate() {
        for shown in found_masks(programs) {
            let (place, mask) = shown.expect("an OR mask");
            assert_eq!(place, 2 * register + 1);
            assert!(mask.is_power_of_two());
        }
    }
}

fn not_looked_at<const BIT: u32>() -> [fn() -> Pair; 2] {
    judging!(|_, pair| senseless_bits(pair) & !(1 << BIT) != 0)
}

#[test]
fn a_bit_not_looked_at() {
    let programs = [
        (0, not_looked_at::<0>()),
        (15, not_looked_at::<15>()),
        (16, not_looked_at::<16>()),
        (31, not_looked_at::<31>()),
    ];
    for (bit, programs) in programs {
        for shown in found_masks(programs) {
            let (place, mask) = shown.expect("an OR mask");
            assert_eq!((place % 2, mask), (1, 1 << bit));
        }
    }
}

#[test]
fn and_mask_and_or_mask_exchanged_in_the_test() {
    for shown in found_masks(judging!(|_, [and, or]| senseless_bits([or, and]) != 0)) {
        let (_, mask) = shown.expect("a mask");
        assert!(mask.is_power_of_two());
    }
}

#[test]
fn an_and_mask_of_0_refused() {
    let shown = found_masks(judging!(
        |_, [and, or]| and == 0 || senseless_bits([and, or]) != 0
    ));
    assert_eq!(shown, [None, None]);
}

#[test]
fn an_or_mask_of_0_refused() {
    let shown = found_masks(judging!(
        |_, [and, or]| or == 0 || senseless_bits([and, or]) != 0
    ));
    assert_eq!(shown, [None, None]);
}

#[test]
fn equal_masks_refused() {
    let shown = found_masks(judging!(
        |_, [and, or]| and == or || senseless_bits([and, or]) != 0
    ));
    assert_eq!(shown, [None, None]);
}

fn reads_for_type_2_alone(wrong: &mut Wrong, call: &mut Call) -> Given {
    match call {
        Call::FindRecord(search) if search.record_type != 2 => read(wrong, call, never),
        _ => wrong.reference.call(call),
    }
}

#[test]
fn tested_in_a_search_for_type_2_alone() {
    let (found, record) = found_record(|| pair(reads_for_type_2_alone));
    assert_eq!(short_names(&found), ["find_record"]);
    assert!(only_mask(&blocks::numbers(&record)).is_some());
}

fn tests_every_revision(wrong: &mut Wrong, call: &mut Call) -> Given {
    instead(wrong, call, |call| {
        for part in call.parts() {
            if let ("slot" | "bridge_block", Part::Bytes(block)) = part
                && blocks::is_senseless_elsewhere(block.lent())
            {
                block.replace(&[0]);
            }
        }
    })
}

#[test]
fn another_revision_tested() {
    let (_, record) = found_record(|| pair(tests_every_revision));
    assert_ne!(record[3..7], [1, 0, 0, 0]);
    assert!(only_mask(&blocks::numbers(&record)).is_some());
}

/// The register whose OR mask a call for register values takes, though it is senseless.
fn found_register(make: fn() -> Pair) -> usize {
    let (found, record) = found_record(make);
    assert_eq!(short_names(&found), ["start", "osc", "register_values"]);
    let (place, _) = only_mask(&blocks::numbers(&record)).expect("an OR mask");
    assert_eq!(place % 2, 1);
    place / 2
}

fn computes_values_anyway(wrong: &mut Wrong, call: &mut Call) -> Given {
    match call {
        Call::RegisterValues(_) => read(wrong, call, never),
        _ => wrong.reference.call(call),
    }
}

#[test]
fn register_values_by_a_senseless_pair() {
    found_register(|| pair(computes_values_anyway));
}

/// The reference, to which pairs are senseless by this rule in register values while AER is held.
fn read_with_aer(wrong: &mut Wrong, call: &mut Call, senseless: Senseless) -> Given {
    if let Call::RegisterValues(asked) = call {
        let (session, bridge) = (asked.session, asked.bridge);
        let report = wrong.reference.call(&mut Report { session, bridge }.into());
        if matches!(report.handed, Handed::Holding { held, .. } if held & AER != 0) {
            return read(wrong, call, senseless);
        }
    }
    wrong.reference.call(call)
}

#[test]
fn tested_only_without_aer() {
    found_register(|| pair(|wrong, call| read_with_aer(wrong, call, never)));
}

/// The error registers stay while AER is held, but their pairs count.
fn of_changed_registers(register: usize, pair: [u32; 2]) -> bool {
    matches!(register, 4 | 5) && senseless_bits(pair) != 0
}

#[test]
fn pairs_of_error_registers_not_tested_with_aer() {
    let make = || pair(|wrong, call| read_with_aer(wrong, call, of_changed_registers));
    assert!(!matches!(found_register(make), 4 | 5));
}

#[test]
fn a_senseless_pair_written() {
    let settings = found_in(0, masks::pairs, wrongly!(senseless: never));
    assert_eq!(settings.flags, [0, 0, 1]);
    assert!(only_mask(&settings.values[MASKS]).is_some());
}

#[test]
fn absent_pairs_that_count() {
    let settings = found_in(0, masks::pairs, wrongly!(pairs_count: |_| true));
    assert_eq!(settings.flags, [0, 0, 0]);
}

#[test]
fn refusal_15_before_14_by_a_senseless_pair() {
    let early = wrongly!(number_given: |in_range, meaningful, room| {
        match (in_range, room, meaningful) {
            (false, _, _) | (true, true, false) => 14,
            (true, false, _) => 15,
            (true, true, true) => 0,
        }
    });
    let settings = found_in(0, masks::pairs, early);
    assert_eq!(settings.flags, [0, 0, 1]);
}
