//! Masks that have a meaning, and masks that have none: document 02, h.

use crate::build::*;
use crate::writer_rules::write;
use reference::{ExpressSetting, Masks, Refusal, Settings, find_record, read_records};

/// The registers of the record, in its order.
const REGISTERS: [fn(&mut ExpressSetting) -> &mut Masks; 8] = [
    |setting| &mut setting.uncorrectable_error_mask,
    |setting| &mut setting.uncorrectable_error_severity,
    |setting| &mut setting.correctable_error_mask,
    |setting| &mut setting.advanced_error_capabilities_and_control,
    |setting| &mut setting.device_control,
    |setting| &mut setting.link_control,
    |setting| &mut setting.secondary_uncorrectable_error_severity,
    |setting| &mut setting.secondary_uncorrectable_error_mask,
];

/// The bits of a register.
fn bits(register: usize) -> u32 {
    if matches!(register, 4 | 5) { 16 } else { 32 }
}

/// All bits of a register.
fn all_bits(register: usize) -> u32 {
    u32::MAX >> (32 - bits(register))
}

/// Every register with pairs that have no meaning: by the lowest bit, the highest, one between, two, and all, among 1s and among others.
fn senseless() -> impl Iterator<Item = (usize, [u32; 2])> {
    (0..8).flat_map(|register| {
        let all = all_bits(register);
        let highest = 1 << (bits(register) - 1);
        let some = [1, highest, 0x0100, 0x0006, all];
        let alone = some.map(|bits| [all & !bits, bits]);
        let among_others = [[0x0F0F, 0x0F1F], [0, 1], [0, highest], [0x5555, 0xAAAA]];
        let pairs = alone.into_iter().chain(among_others);
        pairs.map(move |pair| (register, pair))
    })
}

#[test]
fn each_pair_alone_makes_the_block_unsound() {
    for (register, pair) in senseless() {
        let alone = express_with(register, pair);
        let last = [pci(), pci_x(), alone.clone()].concat();
        let first = [alone.clone(), pci(), pci_x()].concat();
        for block in [alone, last, first] {
            for record_type in [0, 1, 2, 3, 255, 256, 0x102, u32::MAX] {
                let found = find_record(&block, &[], record_type);
                assert_eq!(found, Err(Refusal::RecordBlock), "{register} {pair:X?}");
            }
            assert_eq!(read_records(&block), Err(Refusal::RecordBlock));
        }
    }
}

#[test]
fn other_revisions_are_skipped() {
    for (register, pair) in senseless() {
        for revision in [0, 2, 0x101, u32::MAX] {
            let mut numbers = express_numbers_with(register, pair);
            numbers[0] = revision;
            let block = [record(2, &numbers), pci()].concat();
            assert_eq!(find_record(&block, &[], 2), Err(Refusal::NoRecord));
            assert_eq!(find_record(&block, &[], 0), Ok(&block[71..]));
        }
    }
}

#[test]
fn the_deciding_block_alone_counts() {
    let senseless = express_with(7, [0xFFFF_FFF0, 0x6]);
    let sound = express_with(7, [0xFFFF_FFF6, 0x6]);
    let refused = find_record(&senseless, &sound, 2);
    assert_eq!(refused, Err(Refusal::RecordBlock));
    assert_eq!(find_record(&sound, &senseless, 2), Ok(&sound[..]));
    let refused = find_record(&[], &senseless, 2);
    assert_eq!(refused, Err(Refusal::RecordBlock));
}

/// The new value of one register by this pair, without AER.
fn new_value(register: usize, pair: [u32; 2], value: u32) -> Result<u32, Refusal> {
    let mut current = [0; 8];
    current[register] = value;
    let block = express_with(register, pair);
    let table = holding(0x1F, 0x11);
    let values = table.register_values(OWNER, BRIDGE, &block, &[], &current);
    values.map(|values| values[register])
}

/// ACPI's three cases, configured as 0, reserved, configured as 1, and the fourth that has none.
#[test]
fn three_cases_of_each_bit() {
    for register in 0..8 {
        let all = all_bits(register);
        for bit in 0..bits(register) {
            let one = 1 << bit;
            let left_to_driver = register == 4 && matches!(bit, 5..=7 | 12..=14);
            for current in [0, one, all - one, all] {
                let (mut cleared, mut set) = (current & !one, current | one);
                if left_to_driver {
                    (cleared, set) = (current, current);
                }
                let value = |and_mask, or_mask| new_value(register, [and_mask, or_mask], current);
                assert_eq!(value(all - one, 0), Ok(cleared), "{register} {bit}");
                assert_eq!(value(all, 0), Ok(current), "{register} {bit}");
                assert_eq!(value(all, one), Ok(set), "{register} {bit}");
                assert_eq!(value(all - one, one), Err(Refusal::RecordBlock));
            }
        }
    }
}

/// Error registers included, which stay while AER is held.
#[test]
fn refused_with_aer_held_too() {
    let table = holding(0x1F, 0x19);
    for (register, pair) in senseless() {
        let block = express_with(register, pair);
        let values = table.register_values(OWNER, BRIDGE, &[], &block, &[0; 8]);
        assert_eq!(values, Err(Refusal::RecordBlock), "{register} {pair:X?}");
    }
}

#[test]
fn limits_of_16_bit_registers() {
    for register in [4, 5] {
        let found = |pair| find_record(&express_with(register, pair), &[], 2).map(|_| ());
        for pair in [[0xFFFF, 0xFFFF], [0xFFFF, 0], [0, 0]] {
            assert_eq!(found(pair), Ok(()), "{register} {pair:X?}");
        }
        // Masks that have a meaning, but are too large.
        for pair in [[0x1_0000, 0], [0x1_FFFF, 0xFFFF], [0x1_0000, 0x1_0000]] {
            assert_eq!(
                found(pair),
                Err(Refusal::RecordBlock),
                "{register} {pair:X?}"
            );
        }
        // An OR mask that is too large beside an AND mask that is not has no meaning either.
        assert_eq!(found([0xFFFF, 0x1_0000]), Err(Refusal::RecordBlock));
    }
}

/// A setting with this pair for one register; the others keep every bit.
fn setting_with(register: usize, [and, or]: [u32; 2]) -> Settings {
    let mut setting = ExpressSetting::default();
    for (register, masks) in REGISTERS.iter().enumerate() {
        masks(&mut setting).and = all_bits(register);
    }
    *REGISTERS[register](&mut setting) = Masks { and, or };
    Settings {
        express: Some(setting),
        ..Settings::default()
    }
}

/// With room and without: 14 comes before 15.
#[test]
fn writer_refuses_each_pair_alone() {
    for (register, pair) in senseless() {
        let settings = setting_with(register, pair);
        for length in [0, 1, 70, 71, 72, 113] {
            let refused = write(&settings, length);
            assert_eq!(refused, Err(Refusal::RecordValue), "{register} {pair:X?}");
        }
    }
}

#[test]
fn writer_takes_the_three_cases_of_each_bit() {
    for register in 0..8 {
        let all = all_bits(register);
        for one in (0..bits(register)).map(|bit| 1 << bit) {
            for pair in [[all - one, 0], [all, 0], [all, one]] {
                let settings = setting_with(register, pair);
                let block = write(&settings, 71).unwrap();
                assert_eq!(block[7 + 8 * register..][..8], dwords(&pair));
                assert_eq!(read_records(&block), Ok(settings));
                assert_eq!(write(&settings, 70), Err(Refusal::ShortBuffer));
            }
            let refused = write(&setting_with(register, [all - one, one]), 71);
            assert_eq!(refused, Err(Refusal::RecordValue), "{register} {one:#X}");
        }
    }
}
