//! Record blocks and register values.

use crate::build::*;
use reference::{Refusal, find_record};

/// Whether the block is sound.
fn sound(block: &[u8]) -> bool {
    let [all @ .., never] = [0, 1, 2, 3].map(|tag| find_record(&[], block, tag));
    let unsound = all.contains(&Err(Refusal::RecordBlock));
    let expect = if unsound {
        Refusal::RecordBlock
    } else {
        Refusal::NoRecord
    };
    assert_eq!(never, Err(expect));
    !unsound
}

#[test]
fn limits_of_each_number() {
    let word = [u32::MAX; 8]
        .into_iter()
        .chain([0xFFFF; 4])
        .chain([u32::MAX; 4]);
    let limits = [vec![255, 255, 1, 1], vec![3, 7, 7], word.collect()];
    for (tag, limits) in (0..).zip(limits) {
        let numbers: Vec<u32> = [1].into_iter().chain(limits).collect();
        assert!(sound(&record(tag, &numbers)));
        for at in (1..numbers.len()).filter(|&at| numbers[at] != u32::MAX) {
            let limit = numbers[at];
            // The second has all bits of the limit, so that an AND mask has those of its OR mask.
            for value in [limit + 1, 2 * limit + 1, 1 << 31] {
                let mut above = numbers.clone();
                above[at] = value;
                assert!(!sound(&record(tag, &above)), "{tag} {at} {value:#X}");
            }
        }
    }
}

#[test]
fn lengths_of_revision_1() {
    for (tag, right) in [(0, 20), (1, 16), (2, 68)] {
        for length in 0..80 {
            let mut value = vec![0; length];
            if let Some(revision) = value.first_mut() {
                *revision = 1;
            }
            assert_eq!(
                sound(&field(tag, &value)),
                length == right,
                "{tag} {length}"
            );
        }
    }
}

#[test]
fn other_revisions_are_skipped() {
    for tag in 0..3 {
        for revision in [0, 2, 0x101, u32::MAX] {
            for numbers in 1..20 {
                let block = record(tag, &vec![revision; numbers]);
                let found = find_record(&block, &[], tag.into());
                assert_eq!(found, Err(Refusal::NoRecord));
            }
            let ragged = field(tag, &[2, 0, 0, 0, 0]);
            assert!(!sound(&ragged));
        }
    }
}

#[test]
fn other_tags_are_skipped() {
    for tag in 3..=255 {
        for length in 0..6 {
            let mut block = field(tag, &vec![1; length]);
            let after = block.len();
            block.extend(pci_x());
            let found = |record_type| find_record(&block, &[], record_type);
            assert_eq!(found(1), Ok(&block[after..]));
            assert_eq!(found(tag.into()), Err(Refusal::NoRecord));
        }
    }
}

#[test]
fn bytes_left_over_or_missing() {
    let block = [pci(), field(9, &[]), pci_x()].concat();
    let ends = [0, 23, 26, 45];
    for end in 0..=block.len() {
        assert_eq!(sound(&block[..end]), ends.contains(&end), "{end}");
    }
    assert!(!sound(&[9, 1, 0]));
    assert!(!sound(&[9, 0xFF, 0xFF]));
    assert!(sound(&[9, 0, 0]));
}

#[test]
fn the_same_record_twice() {
    for twice in [pci(), pci_x(), express(3, 2)] {
        assert!(sound(&twice));
        assert!(!sound(&[&twice[..], &other_type(&twice), &twice].concat()));
    }
    let old = record(1, &[2]);
    assert!(sound(&[&old[..], &pci_x(), &old].concat()));
}

/// A record of another type than the given one.
fn other_type(record: &[u8]) -> Vec<u8> {
    if record[0] == 0 { pci_x() } else { pci() }
}

#[test]
fn block_of_4096_bytes() {
    let mut block = express(3, 2);
    block.extend(field(3, &[0; 4096 - 71 - 3]));
    assert_eq!(block.len(), 4096);
    assert_eq!(find_record(&block, &[], 2), Ok(&block[..71]));
    let over = [&express(3, 2)[..], &field(3, &[0; 4097 - 71 - 3])].concat();
    assert_eq!(over.len(), 4097);
    assert!(!sound(&over));
    assert_eq!(find_record(&over, &block, 2), Err(Refusal::RecordBlock));
}

#[test]
fn whole_block_is_checked_first() {
    let block = [pci(), vec![9]].concat();
    assert_eq!(find_record(&block, &[], 0), Err(Refusal::RecordBlock));
    assert_eq!(find_record(&block, &[], 7), Err(Refusal::RecordBlock));
}

#[test]
fn types_are_compared_whole() {
    let block = [pci(), pci_x(), express(7, 4)].concat();
    assert_eq!(find_record(&block, &[], 2), Ok(&block[42..]));
    for other in [3, 255, 256, 0x101, 0x102, 0x1_0002, 0x8000_0000, u32::MAX] {
        assert_eq!(find_record(&block, &[], other), Err(Refusal::NoRecord));
    }
}

#[test]
fn record_is_a_part_of_its_block() {
    let block = [pci(), pci_x(), express(7, 4)].concat();
    let found = find_record(&[], &block, 1).unwrap();
    assert_eq!(found.as_ptr_range(), block[23..42].as_ptr_range());
}

/// Sixteen masks, all different, Device Control at 8 and 9, Link Control at 10 and 11.
const MASKS: [u32; 16] = [
    0xFFFF_0001,
    0x0000_0001,
    0xFF00_FF02,
    0x0000_0002,
    0xF0F0_F0F4,
    0x0000_0004,
    0x0F0F_0F0F,
    0x0000_0008,
    0xFF10,
    0x0010,
    0xF0F0,
    0x0020,
    0x00FF_FF40,
    0x0000_0040,
    0x0FF0_0FF0,
    0x0000_0080,
];
/// Eight current values.
const CURRENT: [u32; 8] = [
    0x1234_5678,
    0x2345_6789,
    0x3456_789A,
    0x4567_89AB,
    0x5678,
    0x6789,
    0x789A_BCDE,
    0x89AB_CDEF,
];

/// A block with the masks.
fn masks() -> Vec<u8> {
    let numbers: Vec<u32> = [1].into_iter().chain(MASKS).collect();
    record(2, &numbers)
}

#[test]
fn registers_without_aer() {
    let table = holding(0x1F, 0x11);
    let expect = [
        0x1234_0001,
        0x2300_6702,
        0x3050_7094,
        0x0507_090B,
        0x5670,
        0x60A0,
        0x009A_BC40,
        0x09A0_0DE0,
    ];
    let values = table.register_values(OWNER, BRIDGE, &masks(), &[], &CURRENT);
    assert_eq!(values, Ok(expect));
}

#[test]
fn registers_with_aer_held() {
    let table = holding(0x1F, 0x19);
    let mut expect = CURRENT;
    expect[4..6].copy_from_slice(&[0x5670, 0x60A0]);
    let values = table.register_values(OWNER, BRIDGE, &[], &masks(), &CURRENT);
    assert_eq!(values, Ok(expect));
}

/// The new values of registers that all have this one, by the same pair for each, without AER.
fn every(value: u32, and_mask: u32, or_mask: u32) -> [u32; 8] {
    let table = holding(0x1F, 0x11);
    let block = express(and_mask, or_mask);
    let values = table.register_values(OWNER, BRIDGE, &block, &[], &[value; 8]);
    values.unwrap()
}

#[test]
fn payload_sizes_keep_their_value_in_device_control() {
    assert_eq!(every(0, 0xFFFF, 0xFFFF)[4..6], [0x8F1F, 0xFFFF]);
    assert_eq!(every(0x70E0, 0, 0)[4..6], [0x70E0, 0]);
}

#[test]
fn each_bit_of_device_control() {
    for bit in 0..16 {
        let stays = matches!(bit, 5..=7 | 12..=14);
        let one = 1 << bit;
        let kept = if stays { one } else { 0 };
        assert_eq!(every(one, 0, 0)[4], kept, "cleared {bit}");
        assert_eq!(every(0, one, one)[4], one - kept, "set {bit}");
        assert_eq!(every(one, one, 0)[4], one, "left {bit}");
    }
}

#[test]
fn register_list_exactly_when() {
    let table = holding(0x1F, 0x11);
    let block = express(u32::MAX, 0);
    let call = |current: &[u32]| table.register_values(OWNER, BRIDGE, &block, &[], current);
    for count in (0..20).filter(|&count| count != 8) {
        assert_eq!(call(&vec![0; count]), Err(Refusal::Registers));
    }
    for register in 0..8 {
        let mut current = [0xFFFF; 8];
        assert_eq!(call(&current), Ok(current));
        current[register] = 0x1_0000;
        let word = matches!(register, 4 | 5);
        assert_eq!(call(&current) == Err(Refusal::Registers), word);
    }
}

#[test]
fn hot_plug_must_be_held() {
    for held_before in [0, 0x02, 0x10, 0x1E] {
        let table = holding(0x1F, held_before);
        let values = table.register_values(OWNER, BRIDGE, &express(0, 0), &[], &[0; 8]);
        assert_eq!(values, Err(Refusal::NoHotPlug));
    }
}
