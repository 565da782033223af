//! Record blocks written and read: document 02, g and h. What is expected is worked out from the documents.
use slipwattle::{
    ExpressSetting, MAX_WRITTEN, Masks, PciSetting, PciXSetting, Refusal, Settings, find_record,
};

const fn masks(and: u32, or: u32) -> Masks {
    Masks { and, or }
}

/// A record of each type; no two values of one record are the same.
const ALL: Settings = Settings {
    pci: Some(PciSetting {
        cache_line_size: 0x10,
        latency_timer: 0xF8,
        enable_serr: 0,
        enable_perr: 1,
    }),
    pci_x: Some(PciXSetting {
        maximum_memory_read_byte_count: 2,
        average_maximum_outstanding_split_transactions: 5,
        total_maximum_outstanding_split_transactions: 6,
    }),
    express: Some(ExpressSetting {
        uncorrectable_error_mask: masks(0x0C0B_0A09, 0x0403_0201),
        uncorrectable_error_severity: masks(0x1C1B_1A19, 0x1413_1211),
        correctable_error_mask: masks(0x2C2B_2A29, 0x2423_2221),
        advanced_error_capabilities_and_control: masks(0x3C3B_3A39, 0x3433_3231),
        device_control: masks(0x4A49, 0x4241),
        link_control: masks(0x5A59, 0x5251),
        secondary_uncorrectable_error_severity: masks(0x6C6B_6A69, 0x6463_6261),
        secondary_uncorrectable_error_mask: masks(0xFCFB_FAF9, 0xF4F3_F2F1),
    }),
};

/// These records by themselves, header included.
const PCI: &[u8] = b"\x00\x14\0\x01\0\0\0\x10\0\0\0\xF8\0\0\0\0\0\0\0\x01\0\0\0";
const PCI_X: &[u8] = b"\x01\x10\0\x01\0\0\0\x02\0\0\0\x05\0\0\0\x06\0\0\0";
const EXPRESS: &[u8] = b"\x02\x44\0\x01\0\0\0\
    \x09\x0A\x0B\x0C\x01\x02\x03\x04\x19\x1A\x1B\x1C\x11\x12\x13\x14\
    \x29\x2A\x2B\x2C\x21\x22\x23\x24\x39\x3A\x3B\x3C\x31\x32\x33\x34\
    \x49\x4A\0\0\x41\x42\0\0\x59\x5A\0\0\x51\x52\0\0\
    \x69\x6A\x6B\x6C\x61\x62\x63\x64\xF9\xFA\xFB\xFC\xF1\xF2\xF3\xF4";

/// The 42-byte block of document 01, and its records.
const EXAMPLE: &[u8; 42] = b"\x00\x14\0\x01\0\0\0\x08\0\0\0\x40\0\0\0\x01\0\0\0\0\0\0\0\
    \x01\x10\0\x01\0\0\0\x03\0\0\0\x04\0\0\0\x07\0\0\0";
const EXAMPLE_SETTINGS: Settings = Settings {
    pci: Some(PciSetting {
        cache_line_size: 8,
        latency_timer: 0x40,
        enable_serr: 1,
        enable_perr: 0,
    }),
    pci_x: Some(PciXSetting {
        maximum_memory_read_byte_count: 3,
        average_maximum_outstanding_split_transactions: 4,
        total_maximum_outstanding_split_transactions: 7,
    }),
    express: None,
};

/// Writes into so many bytes. What is handed back is the buffer's start; every other byte stays, those around the buffer too.
fn write(settings: Settings, length: usize) -> Result<Vec<u8>, Refusal> {
    let mut whole = vec![0xAA; 16 + length + 16];
    let buffer = &mut whole[16..][..length];
    let start = buffer.as_ptr();
    let block = settings.write(buffer).map(|block| {
        assert_eq!(block.as_ptr(), start);
        block.to_vec()
    });
    let size = block.as_ref().map_or(0, Vec::len);
    let mut others = whole[..16].iter().chain(&whole[16 + size..]);
    assert!(others.all(|&byte| byte == 0xAA));
    block
}

/// The settings and the block of a choice of `ALL`'s records: type k is in it where bit k is set.
fn chosen(choice: u8) -> (Settings, Vec<u8>) {
    let has = |k: u8| choice >> k & 1 == 1;
    let settings = Settings {
        pci: ALL.pci.filter(|_| has(0)),
        pci_x: ALL.pci_x.filter(|_| has(1)),
        express: ALL.express.filter(|_| has(2)),
    };
    let records = (0..).zip([PCI, PCI_X, EXPRESS]);
    let present = records.filter(|&(k, _)| has(k)).map(|(_, record)| record);
    (settings, present.collect::<Vec<_>>().concat())
}

#[test]
fn every_choice_of_types_is_written_and_read_back() {
    let lengths = [0, 23, 19, 42, 71, 94, 90, 113];
    for (choice, length) in (0..8).zip(lengths) {
        let (settings, block) = chosen(choice);
        assert_eq!(block.len(), length);
        for enough in [length, length + 1, 200] {
            assert_eq!(write(settings, enough).as_ref(), Ok(&block));
        }
        for short in 0..length {
            assert_eq!(write(settings, short), Err(Refusal::ShortBuffer));
        }
        assert_eq!(Settings::read(&block), Ok(settings));
    }
    assert_eq!(MAX_WRITTEN, 113);
    assert_eq!(Settings::default(), chosen(0).0);
}

#[test]
fn a_written_record_is_found() {
    let mut buffer = [0; MAX_WRITTEN];
    let block = ALL.write(&mut buffer).unwrap();
    for (record_type, record) in (0..).zip([PCI, PCI_X, EXPRESS]) {
        assert_eq!(find_record(&[], block, record_type), Ok(record));
    }
}

#[test]
fn the_block_of_42_bytes_is_read_and_written_again() {
    assert_eq!(Settings::read(EXAMPLE), Ok(EXAMPLE_SETTINGS));
    assert_eq!(write(EXAMPLE_SETTINGS, 42), Ok(EXAMPLE.to_vec()));
}

/// A value by where it stands.
type Value = fn(&mut Settings) -> &mut u32;

fn pci(settings: &mut Settings) -> &mut PciSetting {
    settings.pci.as_mut().unwrap()
}

fn pci_x(settings: &mut Settings) -> &mut PciXSetting {
    settings.pci_x.as_mut().unwrap()
}

fn express(settings: &mut Settings) -> &mut ExpressSetting {
    settings.express.as_mut().unwrap()
}

/// The values that have a limit, and it.
const LIMITED: [(Value, u32); 11] = [
    (|s| &mut pci(s).cache_line_size, 255),
    (|s| &mut pci(s).latency_timer, 255),
    (|s| &mut pci(s).enable_serr, 1),
    (|s| &mut pci(s).enable_perr, 1),
    (|s| &mut pci_x(s).maximum_memory_read_byte_count, 3),
    (
        |s| &mut pci_x(s).average_maximum_outstanding_split_transactions,
        7,
    ),
    (
        |s| &mut pci_x(s).total_maximum_outstanding_split_transactions,
        7,
    ),
    (|s| &mut express(s).device_control.and, 65535),
    (|s| &mut express(s).device_control.or, 65535),
    (|s| &mut express(s).link_control.and, 65535),
    (|s| &mut express(s).link_control.or, 65535),
];

#[test]
fn values_have_limits() {
    for (value, limit) in LIMITED {
        let with = |number| {
            let mut settings = ALL;
            // Beside these a mask may have any value up to its limit.
            express(&mut settings).device_control = masks(65535, 0);
            express(&mut settings).link_control = masks(65535, 0);
            *value(&mut settings) = number;
            settings
        };
        for number in [0, limit - 1, limit] {
            let block = write(with(number), MAX_WRITTEN).unwrap();
            assert_eq!(Settings::read(&block), Ok(with(number)));
        }
        // Some would be right if they were cut to a byte or a word, or had a sign.
        for number in [limit + 1, limit + 256, limit + 65536, 1 << 31, u32::MAX] {
            for length in [0, MAX_WRITTEN - 1, MAX_WRITTEN] {
                let refused = write(with(number), length);
                assert_eq!(refused, Err(Refusal::RecordValue));
            }
        }
    }
}

#[test]
fn the_other_masks_have_none() {
    let all_ones = masks(u32::MAX, u32::MAX);
    let settings = Settings {
        express: Some(ExpressSetting {
            uncorrectable_error_mask: all_ones,
            uncorrectable_error_severity: all_ones,
            correctable_error_mask: all_ones,
            advanced_error_capabilities_and_control: all_ones,
            device_control: masks(0, 0),
            link_control: masks(0, 0),
            secondary_uncorrectable_error_severity: all_ones,
            secondary_uncorrectable_error_mask: all_ones,
        }),
        ..Settings::default()
    };
    let head = b"\x02\x44\0\x01\0\0\0";
    let block = [&head[..], &[0xFF; 32], &[0; 16], &[0xFF; 16]].concat();
    assert_eq!(write(settings, 71).as_ref(), Ok(&block));
    assert_eq!(Settings::read(&block), Ok(settings));
}

/// The pairs of a type 2 record by where they stand.
const PAIRS: [fn(&mut ExpressSetting) -> &mut Masks; 8] = [
    |e| &mut e.uncorrectable_error_mask,
    |e| &mut e.uncorrectable_error_severity,
    |e| &mut e.correctable_error_mask,
    |e| &mut e.advanced_error_capabilities_and_control,
    |e| &mut e.device_control,
    |e| &mut e.link_control,
    |e| &mut e.secondary_uncorrectable_error_severity,
    |e| &mut e.secondary_uncorrectable_error_mask,
];

/// `ALL` with another pair for one register, and its block.
fn with_pair(k: usize, pair: Masks) -> (Settings, Vec<u8>) {
    let mut settings = ALL;
    *PAIRS[k](express(&mut settings)) = pair;
    let (_, mut block) = chosen(0b111);
    let numbers = [pair.and, pair.or].map(u32::to_le_bytes);
    block[49 + 8 * k..][..8].copy_from_slice(numbers.as_flattened());
    (settings, block)
}

fn is_written_and_read(k: usize, pair: Masks) {
    let (settings, block) = with_pair(k, pair);
    assert_eq!(write(settings, MAX_WRITTEN).as_ref(), Ok(&block));
    assert_eq!(Settings::read(&block), Ok(settings));
}

fn is_refused(k: usize, pair: Masks) {
    let (settings, mut block) = with_pair(k, pair);
    for length in [0, MAX_WRITTEN - 1, MAX_WRITTEN] {
        assert_eq!(write(settings, length), Err(Refusal::RecordValue));
    }
    assert_eq!(Settings::read(&block), Err(Refusal::RecordBlock));
    for record_type in 0..4 {
        let found = find_record(&[], &block, record_type);
        assert_eq!(found, Err(Refusal::RecordBlock));
    }
    // Another revision is passed over.
    block[45] = 2;
    assert_eq!(Settings::read(&block), Ok(chosen(0b011).0));
}

#[test]
fn masks_that_keep_clear_and_set_bits_are_written_and_read() {
    let word = [
        masks(0xFFFF, 0),
        masks(0, 0),
        masks(0xFFFF, 0xFFFF),
        masks(0xFF0F, 0x0F00),
        masks(1, 1),
        masks(0xFFFF, 1),
        masks(0x8000, 0x8000),
    ];
    let dword = [
        masks(0x1_0000, 0),
        masks(u32::MAX, 1),
        masks(u32::MAX, 1 << 31),
        masks(1 << 31, 1 << 31),
    ];
    for k in 0..8 {
        for pair in word {
            is_written_and_read(k, pair);
        }
    }
    for k in [0, 1, 2, 3, 6, 7] {
        for pair in dword {
            is_written_and_read(k, pair);
        }
    }
    // Device Control and Link Control have 16 bits.
    for k in [4, 5] {
        for pair in dword {
            is_refused(k, pair);
        }
    }
}

#[test]
fn a_bit_clear_in_and_and_set_in_or_has_no_meaning() {
    let senseless = [
        masks(0, 1),
        masks(0xFFFE, 1),
        masks(0x7FFF, 0x8000),
        masks(0xFFFF, 0x1_0000),
        masks(u32::MAX >> 1, 1 << 31),
        // The starred pair of document 01, whole and cut to a word.
        masks(0xFFFF_FFF0, 6),
        masks(0xFFF0, 6),
        // One bit of two, and a pair turned round.
        masks(1, 3),
        masks(0x0F00, 0xFF0F),
    ];
    for k in 0..8 {
        for pair in senseless {
            is_refused(k, pair);
        }
    }
}

#[test]
fn other_types_and_revisions_are_passed_over() {
    let skipped = b"\x03\x01\0\xFF\x00\x04\0\x02\0\0\0\x02\x08\0\0\0\0\0\xFF\xFF\xFF\xFF";
    assert_eq!(Settings::read(skipped), Ok(Settings::default()));
    let block = [EXPRESS, skipped, PCI_X, skipped, PCI].concat();
    assert_eq!(Settings::read(&block), Ok(ALL));
}

#[test]
fn an_unsound_block_is_not_read() {
    let (_, block) = chosen(0b111);
    for length in 0..block.len() {
        let settings = match length {
            0 => Ok(chosen(0b000).0),
            23 => Ok(chosen(0b001).0),
            42 => Ok(chosen(0b011).0),
            _ => Err(Refusal::RecordBlock),
        };
        assert_eq!(Settings::read(&block[..length]), settings);
    }
    // What breaks it may stand behind every record.
    let end = |bytes: &[u8]| Settings::read(&[&block, bytes].concat());
    for bytes in [&[0xFF][..], &[0, 3, 0, 1, 0, 0], PCI, EXPRESS] {
        assert_eq!(end(bytes), Err(Refusal::RecordBlock));
    }
    let skipped = |length: usize| {
        [
            &[0xFF, length as u8, (length >> 8) as u8],
            &vec![0; length][..],
        ]
        .concat()
    };
    assert_eq!(end(&skipped(4096 - 116)), Ok(ALL));
    assert_eq!(end(&skipped(4097 - 116)), Err(Refusal::RecordBlock));
}
