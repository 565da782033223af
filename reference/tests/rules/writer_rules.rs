//! Record blocks written and read whole: document 02, g.

use crate::build::*;
use reference::{
    ExpressSetting, Masks, PciSetting, PciXSetting, Refusal, Settings, find_record, read_records,
    write_records,
};

/// A PCI setting whose values all differ.
const PCI_SETTING: PciSetting = PciSetting {
    cache_line_size: 0x10,
    latency_timer: 0xF8,
    enable_serr: 0,
    enable_perr: 1,
};
/// A PCI-X setting whose values all differ.
const PCI_X_SETTING: PciXSetting = PciXSetting {
    maximum_memory_read_byte_count: 2,
    average_maximum_outstanding_split_transactions: 5,
    total_maximum_outstanding_split_transactions: 6,
};
/// A PCI Express setting whose bytes all differ; every pair has a meaning.
const EXPRESS_SETTING: ExpressSetting = ExpressSetting {
    uncorrectable_error_mask: masks(0x1716_1514, 0x1312_1110),
    uncorrectable_error_severity: masks(0x2726_2524, 0x2322_2120),
    correctable_error_mask: masks(0x3736_3534, 0x3332_3130),
    advanced_error_capabilities_and_control: masks(0x4746_4544, 0x4342_4140),
    device_control: masks(0x5554, 0x5150),
    link_control: masks(0x6564, 0x6160),
    secondary_uncorrectable_error_severity: masks(0x7776_7574, 0x7372_7170),
    secondary_uncorrectable_error_mask: masks(0x8786_8584, 0x8382_8180),
};
/// All three.
const ALL: Settings = Settings {
    pci: Some(PCI_SETTING),
    pci_x: Some(PCI_X_SETTING),
    express: Some(EXPRESS_SETTING),
};
/// All three as they stand in a block.
const ALL_BYTES: [u8; 113] = [
    0x00, 0x14, 0x00, // type 0, length 20
    0x01, 0x00, 0x00, 0x00, // revision
    0x10, 0x00, 0x00, 0x00, // cache line size
    0xF8, 0x00, 0x00, 0x00, // latency timer
    0x00, 0x00, 0x00, 0x00, // SERR
    0x01, 0x00, 0x00, 0x00, // PERR
    0x01, 0x10, 0x00, // type 1, length 16
    0x01, 0x00, 0x00, 0x00, // revision
    0x02, 0x00, 0x00, 0x00, // maximum memory read byte count
    0x05, 0x00, 0x00, 0x00, // average maximum outstanding split transactions
    0x06, 0x00, 0x00, 0x00, // total maximum outstanding split transactions
    0x02, 0x44, 0x00, // type 2, length 68
    0x01, 0x00, 0x00, 0x00, // revision
    0x14, 0x15, 0x16, 0x17, // Uncorrectable Error Mask, AND
    0x10, 0x11, 0x12, 0x13, // and OR
    0x24, 0x25, 0x26, 0x27, // Uncorrectable Error Severity, AND
    0x20, 0x21, 0x22, 0x23, // and OR
    0x34, 0x35, 0x36, 0x37, // Correctable Error Mask, AND
    0x30, 0x31, 0x32, 0x33, // and OR
    0x44, 0x45, 0x46, 0x47, // Advanced Error Capabilities and Control, AND
    0x40, 0x41, 0x42, 0x43, // and OR
    0x54, 0x55, 0x00, 0x00, // Device Control, AND
    0x50, 0x51, 0x00, 0x00, // and OR
    0x64, 0x65, 0x00, 0x00, // Link Control, AND
    0x60, 0x61, 0x00, 0x00, // and OR
    0x74, 0x75, 0x76, 0x77, // Secondary Uncorrectable Error Severity, AND
    0x70, 0x71, 0x72, 0x73, // and OR
    0x84, 0x85, 0x86, 0x87, // Secondary Uncorrectable Error Mask, AND
    0x80, 0x81, 0x82, 0x83, // and OR
];
/// The settings of the 42-byte block of document 01.
const EXAMPLE: Settings = Settings {
    pci: Some(PciSetting {
        cache_line_size: 8,
        latency_timer: 0x40,
        enable_serr: 1,
        enable_perr: 0,
    }),
    pci_x: Some(PciXSetting {
        maximum_memory_read_byte_count: 3,
        average_maximum_outstanding_split_transactions: 4,
        total_maximum_outstanding_split_transactions: 7,
    }),
    express: None,
};

/// The masks for a register.
const fn masks(and: u32, or: u32) -> Masks {
    Masks { and, or }
}

/// Writes to a buffer of this length; what was not written, or all when refused, is untouched.
pub fn write(settings: &Settings, length: usize) -> Result<Vec<u8>, Refusal> {
    // What the buffer held before does not show in what was written.
    let [first, second] = [UNTOUCHED, !UNTOUCHED].map(|before| {
        let mut buffer = vec![before; length];
        let written = write_records(*settings, &mut buffer);
        let rest = buffer.split_off(written.unwrap_or(0));
        assert!(rest.iter().all(|&byte| byte == before));
        written.map(|_| buffer)
    });
    assert_eq!(first, second);
    first
}

/// Only some of the records: bit 0 of the choice is for type 0, bit 1 for type 1, bit 2 for type 2.
fn choose(settings: &Settings, choice: u32) -> Settings {
    let chosen = |tag: u32| choice >> tag & 1 != 0;
    Settings {
        pci: settings.pci.filter(|_| chosen(0)),
        pci_x: settings.pci_x.filter(|_| chosen(1)),
        express: settings.express.filter(|_| chosen(2)),
    }
}

/// One number of the records that has a limit.
struct Limited {
    tag: u32,
    limit: u32,
    set: fn(&mut Settings, u32),
}

impl Limited {
    /// All three records, with this value for the number.
    fn all_with(&self, value: u32) -> Settings {
        let mut settings = ALL;
        (self.set)(&mut settings, value);
        settings
    }

    /// Values above the limit, some of which would be right if their upper bits were lost.
    fn too_large(&self) -> [u32; 6] {
        let above = self.limit + 1;
        [above, above | 1, 1 << 8 | above, 1 << 16, 1 << 31, u32::MAX]
    }
}

/// All numbers that have a limit. Beside an AND mask the OR mask is 0, beside an OR mask the AND mask is at its limit; so an OR mask that
/// is too large has no meaning either.
const LIMITED: [Limited; 11] = [
    limited(0, 255, |all, value| pci_of(all).cache_line_size = value),
    limited(0, 255, |all, value| pci_of(all).latency_timer = value),
    limited(0, 1, |all, value| pci_of(all).enable_serr = value),
    limited(0, 1, |all, value| pci_of(all).enable_perr = value),
    limited(1, 3, |all, value| {
        pci_x_of(all).maximum_memory_read_byte_count = value
    }),
    limited(1, 7, |all, value| {
        pci_x_of(all).average_maximum_outstanding_split_transactions = value
    }),
    limited(1, 7, |all, value| {
        pci_x_of(all).total_maximum_outstanding_split_transactions = value
    }),
    limited(2, 65535, |all, value| {
        express_of(all).device_control = masks(value, 0)
    }),
    limited(2, 65535, |all, value| {
        express_of(all).device_control = masks(65535, value)
    }),
    limited(2, 65535, |all, value| {
        express_of(all).link_control = masks(value, 0)
    }),
    limited(2, 65535, |all, value| {
        express_of(all).link_control = masks(65535, value)
    }),
];

/// A number of the record of a type, and its limit.
const fn limited(tag: u32, limit: u32, set: fn(&mut Settings, u32)) -> Limited {
    Limited { tag, limit, set }
}

/// The PCI setting, which is present.
fn pci_of(settings: &mut Settings) -> &mut PciSetting {
    settings.pci.as_mut().unwrap()
}

/// The PCI-X setting, which is present.
fn pci_x_of(settings: &mut Settings) -> &mut PciXSetting {
    settings.pci_x.as_mut().unwrap()
}

/// The PCI Express setting, which is present.
fn express_of(settings: &mut Settings) -> &mut ExpressSetting {
    settings.express.as_mut().unwrap()
}

#[test]
fn all_three_are_113_bytes() {
    assert_eq!(write(&ALL, 113), Ok(ALL_BYTES.to_vec()));
    assert_eq!(read_records(&ALL_BYTES), Ok(ALL));
}

#[test]
fn every_shorter_buffer() {
    for length in 0..113 {
        assert_eq!(write(&ALL, length), Err(Refusal::ShortBuffer), "{length}");
    }
}

#[test]
fn rest_of_the_buffer_is_untouched() {
    for length in [113, 114, 115, 117, 128, 226, 4096, 4097, 70_000] {
        assert_eq!(write(&ALL, length), Ok(ALL_BYTES.to_vec()), "{length}");
    }
    for (choice, length) in [(0b001, 23), (0b010, 19), (0b100, 71)] {
        let some = choose(&ALL, choice);
        assert_eq!(write(&some, 113).unwrap().len(), length);
    }
}

#[test]
fn buffer_may_be_a_part() {
    let mut whole = [UNTOUCHED; 200];
    assert_eq!(write_records(ALL, &mut whole[41..154]), Ok(113));
    assert_eq!(whole[..41], [UNTOUCHED; 41]);
    assert_eq!(whole[41..154], ALL_BYTES);
    assert_eq!(whole[154..], [UNTOUCHED; 46]);
    let refused = write_records(ALL, &mut whole[..112]);
    assert_eq!(refused, Err(Refusal::ShortBuffer));
    assert_eq!(whole[..41], [UNTOUCHED; 41]);
    assert_eq!(whole[41..154], ALL_BYTES);
}

#[test]
fn every_choice_of_types() {
    let fields = [&ALL_BYTES[..23], &ALL_BYTES[23..42], &ALL_BYTES[42..]];
    let lengths = [0, 23, 19, 42, 71, 94, 90, 113];
    for (choice, length) in (0..).zip(lengths) {
        let some = choose(&ALL, choice);
        let present = (0..3).filter(|tag| choice >> tag & 1 != 0);
        let expect = present.map(|tag| fields[tag]).collect::<Vec<_>>().concat();
        assert_eq!(expect.len(), length);
        assert_eq!(write(&some, length), Ok(expect.clone()), "{choice:#b}");
        assert_eq!(write(&some, length + 1), Ok(expect.clone()));
        assert_eq!(read_records(&expect), Ok(some));
        for short in 0..length {
            let refused = write(&some, short);
            assert_eq!(refused, Err(Refusal::ShortBuffer), "{choice:#b} {short}");
        }
    }
}

#[test]
fn nothing_present() {
    let nothing = Settings::default();
    assert_eq!(nothing, choose(&ALL, 0));
    assert_eq!(write_records(nothing, &mut []), Ok(0));
    for length in [0, 1, 3, 113, 4097] {
        assert_eq!(write(&nothing, length), Ok(vec![]));
    }
    assert_eq!(read_records(&[]), Ok(nothing));
}

#[test]
fn limits_of_each_value() {
    for number in &LIMITED {
        for value in [0, 1, number.limit - 1, number.limit] {
            let settings = number.all_with(value);
            let block = write(&settings, 113).unwrap();
            assert_eq!(read_records(&block), Ok(settings));
        }
        for value in number.too_large() {
            let settings = number.all_with(value);
            for length in [0, 1, 112, 113, 200] {
                let refused = write(&settings, length);
                assert_eq!(refused, Err(Refusal::RecordValue), "{value:#X}");
            }
        }
    }
}

#[test]
fn all_values_at_their_limit() {
    let all_ones = masks(u32::MAX, u32::MAX);
    let mut settings = ALL;
    settings.express = Some(ExpressSetting {
        uncorrectable_error_mask: all_ones,
        uncorrectable_error_severity: all_ones,
        correctable_error_mask: all_ones,
        advanced_error_capabilities_and_control: all_ones,
        secondary_uncorrectable_error_severity: all_ones,
        secondary_uncorrectable_error_mask: all_ones,
        ..EXPRESS_SETTING
    });
    for number in &LIMITED {
        (number.set)(&mut settings, number.limit);
    }
    let pci = record(0, &[1, 255, 255, 1, 1]);
    let pci_x = record(1, &[1, 3, 7, 7]);
    let expect = [pci, pci_x, express(u32::MAX, u32::MAX)].concat();
    assert_eq!(write(&settings, 113).as_ref(), Ok(&expect));
    assert_eq!(read_records(&expect), Ok(settings));
}

#[test]
fn values_of_absent_records_do_not_count() {
    for number in &LIMITED {
        for choice in 0..8 {
            let bad = number.all_with(number.limit + 1);
            let some = choose(&bad, choice);
            let written = write(&some, 113);
            if choice >> number.tag & 1 != 0 {
                assert_eq!(written, Err(Refusal::RecordValue));
            } else {
                assert_eq!(written, write(&choose(&ALL, choice), 113));
                assert!(written.is_ok());
            }
        }
    }
}

#[test]
fn each_value_by_itself_in_its_place() {
    let zeros = Settings {
        pci: Some(PciSetting::default()),
        pci_x: Some(PciXSetting::default()),
        express: Some(ExpressSetting::default()),
    };
    let empty = write(&zeros, 113).unwrap();
    let places: [(usize, &[u32]); 11] = [
        (7, &[255]),
        (11, &[255]),
        (15, &[1]),
        (19, &[1]),
        (30, &[3]),
        (34, &[7]),
        (38, &[7]),
        (81, &[65535, 0]),
        (81, &[65535, 65535]),
        (89, &[65535, 0]),
        (89, &[65535, 65535]),
    ];
    for (number, (place, numbers)) in LIMITED.iter().zip(places) {
        let mut settings = zeros;
        (number.set)(&mut settings, number.limit);
        let mut expect = empty.clone();
        expect[place..][..4 * numbers.len()].copy_from_slice(&dwords(numbers));
        assert_eq!(write(&settings, 113), Ok(expect), "{place}");
    }
}

#[test]
fn records_are_found_in_what_was_written() {
    let block = write(&ALL, 113).unwrap();
    for (tag, place) in [(0, 0..23), (1, 23..42), (2, 42..113)] {
        let found = find_record(&block, &[], tag).unwrap();
        assert_eq!(found.as_ptr_range(), block[place].as_ptr_range());
    }
}

#[test]
fn registers_by_what_was_written() {
    let block = write(&choose(&ALL, 0b100), 71).unwrap();
    let table = holding(0x1F, 0x11);
    let values = table.register_values(OWNER, BRIDGE, &block, &[], &[0; 8]);
    let expect = [
        0x1312_1110,
        0x2322_2120,
        0x3332_3130,
        0x4342_4140,
        // Device Control keeps bits 5 to 7 and 12 to 14.
        0x0110,
        0x6160,
        0x7372_7170,
        0x8382_8180,
    ];
    assert_eq!(values, Ok(expect));
}

#[test]
fn block_of_42_bytes_again() {
    let block: [u8; 42] = [
        0x00, 0x14, 0x00, 0x01, 0, 0, 0, 0x08, 0, 0, 0, 0x40, 0, 0, 0, 0x01, 0, 0, 0, 0, 0, 0, 0,
        0x01, 0x10, 0x00, 0x01, 0, 0, 0, 0x03, 0, 0, 0, 0x04, 0, 0, 0, 0x07, 0, 0, 0,
    ];
    assert_eq!(read_records(&block), Ok(EXAMPLE));
    assert_eq!(write(&EXAMPLE, 42), Ok(block.to_vec()));
    assert_eq!(write(&EXAMPLE, 41), Err(Refusal::ShortBuffer));
}

#[test]
fn other_fields_are_not_read() {
    let other = record(0, &[2, 0x1234_5678]);
    let extra = [&other[..], &field(3, &[1, 2, 3]), &field(255, &[])].concat();
    assert_eq!(read_records(&extra), Ok(Settings::default()));
    let long = record(2, &[2; 17]);
    let zero = record(1, &[0, 9, 9, 9]);
    let parts = [&extra[..], &pci(), &long, &extra, &pci_x(), &zero];
    let block = parts.concat();
    assert_eq!(read_records(&block), Ok(EXAMPLE));
    assert_eq!(write(&EXAMPLE, 42), Ok([pci(), pci_x()].concat()));
}

#[test]
fn any_order_is_read_and_rising_order_written() {
    let [zero, one, two] = [&ALL_BYTES[..23], &ALL_BYTES[23..42], &ALL_BYTES[42..]];
    for order in [
        [zero, one, two],
        [zero, two, one],
        [one, zero, two],
        [one, two, zero],
        [two, zero, one],
        [two, one, zero],
    ] {
        let settings = read_records(&order.concat());
        assert_eq!(settings, Ok(ALL));
        assert_eq!(write(&settings.unwrap(), 113), Ok(ALL_BYTES.to_vec()));
    }
}

#[test]
fn unsound_blocks_are_not_read() {
    let too_large = record(1, &[1, 4, 0, 0]);
    let twice = [pci(), pci()].concat();
    let ragged = [&ALL_BYTES[..], &[9]].concat();
    let large = [&ALL_BYTES[..], &field(3, &[0; 4097 - 113 - 3])].concat();
    for block in [
        too_large,
        twice,
        ragged,
        large.clone(),
        field(0, &[1, 0, 0]),
    ] {
        assert_eq!(read_records(&block), Err(Refusal::RecordBlock));
    }
    for end in (0..113).filter(|end| ![0, 23, 42].contains(end)) {
        let cut = read_records(&ALL_BYTES[..end]);
        assert_eq!(cut, Err(Refusal::RecordBlock), "{end}");
    }
    let most = [&ALL_BYTES[..], &field(3, &[0; 4096 - 113 - 3])].concat();
    assert_eq!((most.len(), large.len()), (4096, 4097));
    assert_eq!(read_records(&most), Ok(ALL));
}
