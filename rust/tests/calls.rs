//! The calls and their refusals, whose words tests/header.rs compares. What is expected is worked out from the documents.
mod fixture;

use std::ops::Range;

use fixture::mcfg;
use slipwattle::code_type::{OPEN_FIRMWARE, PA_RISC, PC_AT, UEFI};
use slipwattle::osc::{
    CONTROL_AER, CONTROL_ALL_3_0, CONTROL_ALL_3_3, CONTROL_ALL_ONES_INVALID,
    CONTROL_COMPLETION_TIMEOUT, CONTROL_DOWNSTREAM_PORT_CONTAINMENT, CONTROL_EXPRESS_CAPABILITY,
    CONTROL_EXPRESS_HOT_PLUG, CONTROL_LATENCY_TOLERANCE_REPORTING, CONTROL_PME,
    CONTROL_SHPC_HOT_PLUG, CONTROL_SYSTEM_FIRMWARE_INTERMEDIARY, OSC_COUNT, OSC_REVISION, OSC_UUID,
    QUERY_FLAG, STATUS_FAILURE, STATUS_MASKED, STATUS_UNKNOWN_REVISION, STATUS_UNKNOWN_UUID,
    SUPPORT_ALL_3_0, SUPPORT_ALL_3_3, SUPPORT_ERROR_DISCONNECT_RECOVER,
};
use slipwattle::{
    BridgeKind, BridgeNumber, BridgeRow, Edition, Holding, MAX_ROM, PciXSetting, Place, Refusal,
    SessionNumber, Settings, Table, find_image, find_record,
};

const CLASS: SessionNumber = SessionNumber(1);
const LIVE: SessionNumber = SessionNumber(2);
const CLASS_BRIDGE: BridgeNumber = BridgeNumber(0);
const LIVE_BRIDGE: BridgeNumber = BridgeNumber(1);
/// What register values need.
const HOT_PLUG: u32 = CONTROL_EXPRESS_HOT_PLUG | CONTROL_EXPRESS_CAPABILITY;
/// A place on the live bridge.
const PLACE: Place = Place {
    bridge: LIVE_BRIDGE,
    bus: 17,
    device: 2,
    function: 3,
    offset: 0x10,
};
/// A type 1 record.
const TYPE_1: &[u8] = &[1, 16, 0, 1, 0, 0, 0, 3, 0, 0, 0, 4, 0, 0, 0, 7, 0, 0, 0];
/// The vendor and the device of the ROM images, which are for UEFI.
const VENDOR: u32 = 0x1234;
const DEVICE: u32 = 0x5678;

/// An Express row of 16 buses for each owner, of edition 3.0.
fn row(owner: u8) -> BridgeRow {
    BridgeRow {
        permitted: CONTROL_ALL_3_0,
        segment: 0,
        owner: SessionNumber(owner),
        first_bus: 16 * (owner - 1),
        last_bus: 16 * (owner - 1) + 15,
        kind: BridgeKind::Express,
        edition: Edition::V3_0,
    }
}

/// The same of edition 3.3.
fn row_3_3(owner: u8) -> BridgeRow {
    BridgeRow {
        permitted: CONTROL_ALL_3_3,
        edition: Edition::V3_3,
        ..row(owner)
    }
}

fn table() -> Table {
    Table::start(&mcfg(), &[row(1), row(2)]).unwrap()
}

/// The class's _OSC call with these DWORDs, and the answer's.
fn osc(table: &mut Table, capabilities: [u32; 3]) -> [u32; 3] {
    osc_by(table, CLASS, CLASS_BRIDGE, capabilities)
}

/// A session's _OSC call on its bridge.
fn osc_by(
    table: &mut Table,
    session: SessionNumber,
    bridge: BridgeNumber,
    capabilities: [u32; 3],
) -> [u32; 3] {
    let capabilities = capabilities.map(u32::to_le_bytes);
    let mut answer = [[0xAA; 4]; 3];
    let (asked, answered) = (capabilities.as_flattened(), answer.as_flattened_mut());
    let done = table.osc(
        session,
        bridge,
        OSC_REVISION,
        OSC_COUNT,
        &OSC_UUID,
        asked,
        answered,
    );
    assert_eq!(done, Ok(()));
    answer.map(u32::from_le_bytes)
}

/// The table after the class took the control bits and told the support bits 0x1F.
fn taken(control: u32) -> Table {
    let mut table = table();
    assert_eq!(osc(&mut table, [0, 0x1F, control]), [0, 0x1F, control]);
    table
}

/// A type 2 record whose pairs are AND 0xFFF6, OR 6.
fn type_2() -> Vec<u8> {
    same_pairs([0xFFF6, 6])
}

/// A type 2 record with the same AND and OR mask for every register.
fn same_pairs(masks: [u32; 2]) -> Vec<u8> {
    let mut record = vec![2, 68, 0, 1, 0, 0, 0];
    record.extend(masks.map(u32::to_le_bytes).as_flattened().repeat(8));
    record
}

/// A type 2 record with these masks for one register, which keeps the low 16 bits of the others.
fn one_pair(k: usize, masks: [u32; 2]) -> Vec<u8> {
    let mut record = same_pairs([0xFFFF, 0]);
    record[7 + 8 * k..][..8].copy_from_slice(masks.map(u32::to_le_bytes).as_flattened());
    record
}

/// A ROM of so many bytes that starts with an image of so many units of 512 bytes, whose structure starts at `pointer`. It is the last.
fn rom(length: usize, units: u16, pointer: u16) -> Vec<u8> {
    let structure = usize::from(pointer);
    let mut rom = vec![0; length.max(structure + 24)];
    let mut lay_down = |at: usize, bytes: &[u8]| rom[at..][..bytes.len()].copy_from_slice(bytes);
    lay_down(0, &[0x55, 0xAA]);
    lay_down(0x18, &pointer.to_le_bytes());
    lay_down(structure, b"PCIR\x34\x12\x78\x56");
    lay_down(structure + 0x10, &units.to_le_bytes());
    lay_down(structure + 0x14, &[3, 0x80]);
    rom.truncate(length);
    rom
}

/// An image of 512 bytes that is not the last, and then this one.
fn and_then(second: Vec<u8>) -> Vec<u8> {
    let mut first = rom(512, 1, 0x1C);
    first[0x31] = 0;
    [first, second].concat()
}

/// An image of 512 bytes and one of 1024. The second structure starts at 0x240.
fn two_images() -> Vec<u8> {
    and_then(rom(1024, 2, 0x40))
}

/// The search for the vendor, the device and UEFI.
fn find_ours(rom: &[u8]) -> Result<&[u8], Refusal> {
    find_image(rom, VENDOR, DEVICE, UEFI)
}

/// The search after these bytes of the ROM, each at its place, were changed: where the image lies.
fn find_after(mut rom: Vec<u8>, edits: &[(usize, u8)]) -> Result<Range<usize>, Refusal> {
    for &(at, byte) in edits {
        rom[at] = byte;
    }
    let image = find_ours(&rom)?;
    let start = image.as_ptr().addr() - rom.as_ptr().addr();
    Ok(start..start + image.len())
}

#[test]
fn start_hands_over_every_field_of_a_row() {
    let start = |edit: fn(&mut BridgeRow)| {
        let mut row = row(1);
        edit(&mut row);
        Table::start(&mcfg(), &[row]).map(|table| table.len())
    };
    let sound: [fn(&mut BridgeRow); 4] = [
        |row| row.owner = SessionNumber(63),
        |row| row.last_bus = 255,
        |row| (row.kind, row.permitted) = (BridgeKind::Conventional, CONTROL_SHPC_HOT_PLUG),
        |row| (row.edition, row.permitted) = (Edition::V3_3, 1 << 9),
    ];
    let unsound: [fn(&mut BridgeRow); 8] = [
        |row| row.owner = SessionNumber(64),
        |row| row.segment = 1,
        |row| row.segment = 1 << 8,
        |row| row.first_bus = 16,
        |row| row.kind = BridgeKind::Conventional,
        |row| row.permitted = 1 << 5,
        |row| row.permitted = 1 << 31,
        |row| (row.edition, row.permitted) = (Edition::V3_3, 1 << 10),
    ];
    assert_eq!(sound.map(start), [Ok(1); 4]);
    assert_eq!(unsound.map(start), [Err(Refusal::Rows); 8]);
}

#[test]
fn a_row_permits_bits_known_in_its_edition() {
    let sound = |edition, kind, permitted| {
        let row = BridgeRow {
            edition,
            kind,
            permitted,
            ..row(1)
        };
        let refused = Table::start(&mcfg(), &[row]).err();
        assert!(matches!(refused, None | Some(Refusal::Rows)));
        refused.is_none()
    };
    for (edition, known) in [(Edition::V3_0, 0..5), (Edition::V3_3, 0..10)] {
        for bit in 0..32 {
            let express = sound(edition, BridgeKind::Express, 1 << bit);
            assert_eq!(express, known.contains(&bit));
            let conventional = sound(edition, BridgeKind::Conventional, 1 << bit);
            assert_eq!(conventional, bit == 1);
        }
        assert!(sound(edition, BridgeKind::Express, (1 << known.end) - 1));
        assert!(!sound(edition, BridgeKind::Conventional, 0x12));
    }
    assert_eq!(Edition::default(), Edition::V3_0);
}

#[test]
fn start_takes_0_to_64_rows() {
    let one_bus = |bus| BridgeRow {
        first_bus: bus,
        last_bus: bus,
        ..row(1)
    };
    let rows: Vec<BridgeRow> = (0..200).map(one_bus).collect();
    assert!(Table::start(&mcfg(), &[]).unwrap().is_empty());
    let most = Table::start(&mcfg(), &rows[..64]).unwrap();
    assert_eq!((most.len(), most.is_empty()), (64, false));
    for count in [65, 66, 200] {
        let refused = Table::start(&mcfg(), &rows[..count]).unwrap_err();
        assert_eq!(refused, Refusal::Rows);
        // The MCFG table is looked at first.
        let refused = Table::start(&[], &rows[..count]).unwrap_err();
        assert_eq!(refused, Refusal::Mcfg);
    }
}

#[test]
fn osc_has_the_named_bits() {
    let mut table = table();
    let query = [QUERY_FLAG, 0, CONTROL_ALL_3_0];
    assert_eq!(osc(&mut table, query), [0, 0, CONTROL_ALL_3_0]);
    let no_capability = [0, 0, CONTROL_AER | CONTROL_SHPC_HOT_PLUG];
    let granted = [STATUS_MASKED, 0, CONTROL_SHPC_HOT_PLUG];
    assert_eq!(osc(&mut table, no_capability), granted);
    let mut status = |revision, count: u32, uuid: &[u8]| {
        let mut answer = vec![0xAA; 4 * count as usize];
        let capabilities = answer.clone();
        let (asked, answered) = (&capabilities, &mut answer);
        let done = table.osc(CLASS, CLASS_BRIDGE, revision, count, uuid, asked, answered);
        assert_eq!(done, Ok(()));
        u32::from_le_bytes(*answer.first_chunk().unwrap())
    };
    let (revision, count) = (OSC_REVISION, OSC_COUNT);
    assert_eq!(status(2, 4, &[0; 16]), STATUS_UNKNOWN_UUID);
    assert_eq!(status(2, 4, &OSC_UUID), STATUS_UNKNOWN_REVISION);
    assert_eq!(status(revision, 4, &OSC_UUID), STATUS_FAILURE);
    assert_eq!(status(revision, count, &OSC_UUID), STATUS_MASKED);
}

#[test]
fn aer_is_taken_in_one_call_with_the_capability_structure() {
    let mut table = taken(CONTROL_EXPRESS_CAPABILITY);
    let aer = [0, 0, CONTROL_AER];
    assert_eq!(osc(&mut table, aer), [STATUS_MASKED, 0, 0]);
    let both = [0, 0, CONTROL_AER | CONTROL_EXPRESS_CAPABILITY];
    assert_eq!(osc(&mut table, both), both);
    // Held, it is granted again by itself.
    assert_eq!(osc(&mut table, aer), aer);
}

/// What a taking call is granted on a new bridge of the class.
fn granted(edition: Edition, permitted: u32, requested: u32, support: u32) -> u32 {
    let row = BridgeRow {
        permitted,
        edition,
        ..row(1)
    };
    let mut table = Table::start(&mcfg(), &[row]).unwrap();
    let [status, declared, granted] = osc(&mut table, [0, support, requested]);
    assert_eq!(declared, support);
    assert_eq!(status, STATUS_MASKED * u32::from(granted != requested));
    assert_eq!(table.report(CLASS, CLASS_BRIDGE).unwrap().held, granted);
    granted
}

#[test]
fn a_bit_of_edition_3_3_needs_others() {
    let grants =
        |permitted, requested, support| granted(Edition::V3_3, permitted, requested, support);
    let (all, all_support) = (CONTROL_ALL_3_3, SUPPORT_ALL_3_3);
    let capability = CONTROL_EXPRESS_CAPABILITY;
    for bit in [
        CONTROL_EXPRESS_HOT_PLUG,
        CONTROL_SHPC_HOT_PLUG,
        CONTROL_PME,
        CONTROL_LATENCY_TOLERANCE_REPORTING,
        CONTROL_COMPLETION_TIMEOUT,
    ] {
        let both = bit | capability;
        assert_eq!(grants(both, both, 0), both);
        assert_eq!(grants(all, bit, all_support), 0);
        assert_eq!(grants(bit, both, all_support), 0);
    }
    for bit in [
        capability,
        CONTROL_ALL_ONES_INVALID,
        CONTROL_SYSTEM_FIRMWARE_INTERMEDIARY,
    ] {
        assert_eq!(grants(bit, bit, 0), bit);
    }
    // AER and downstream port containment need each other.
    let (aer, containment) = (CONTROL_AER, CONTROL_DOWNSTREAM_PORT_CONTAINMENT);
    let three = aer | capability | containment;
    let recover = SUPPORT_ERROR_DISCONNECT_RECOVER;
    assert_eq!(grants(three, three, recover), three);
    assert_eq!(grants(all, three, all_support ^ recover), capability);
    assert_eq!(grants(all, aer | capability, recover), capability);
    assert_eq!(grants(all, containment | capability, recover), capability);
    assert_eq!(grants(all, aer | containment, recover), 0);
    assert_eq!(grants(all ^ aer, three, recover), capability);
    assert_eq!(grants(all ^ containment, three, recover), capability);
}

#[test]
fn the_largest_set_is_granted() {
    let lines = [
        // Permitted, requested, support, granted.
        [0x3FF, 0x3FF, 0x80, 0x3FF],
        [0x3FF, 0x3FF, 0x1F, 0x377],
        [0x3FF, 0x3EF, 0x1FF, 0x240],
        [0x01F, 0x01F, 0x1FF, 0x017],
        [0x3FF, 0x400, 0x1FF, 0],
        [0x3FF, u32::MAX, u32::MAX, 0x3FF],
    ];
    for [permitted, requested, support, expected] in lines {
        let given = granted(Edition::V3_3, permitted, requested, support);
        assert_eq!(given, expected);
    }
    // In edition 3.0 bit 1 needs nothing, bit 3 no bit 7, and higher bits are not known.
    assert_eq!(granted(Edition::V3_0, 0x1F, 0x02, 0), 0x02);
    assert_eq!(granted(Edition::V3_0, 0x1F, 0x18, 0), 0x18);
    assert_eq!(granted(Edition::V3_0, 0x1F, 0x3FF, 0x1FF), 0x1F);
    assert_eq!(granted(Edition::V3_0, 0x1F, 0x98, 0x80), 0x18);
}

#[test]
fn held_bits_and_support_declared_earlier_count() {
    let mut table = Table::start(&mcfg(), &[row_3_3(1)]).unwrap();
    // A query declares for itself alone.
    let (query, again) = ([QUERY_FLAG, 0x80, 0x98], [QUERY_FLAG, 0, 0x98]);
    assert_eq!(osc(&mut table, query), [0, 0x80, 0x98]);
    assert_eq!(osc(&mut table, again), [STATUS_MASKED, 0, 0x10]);
    assert_eq!(osc(&mut table, [0, 0x80, 0]), [0, 0x80, 0]);
    assert_eq!(osc(&mut table, [0, 0, 0x98]), [0, 0, 0x98]);
    // A held bit needs nothing; a new one needs bit 4 in the same call.
    assert_eq!(osc(&mut table, [0, 0, 0x08]), [0, 0, 0x08]);
    assert_eq!(osc(&mut table, [0, 0, 0x89]), [STATUS_MASKED, 0, 0x88]);
    let (held, supported) = (0x98, 0x80);
    let report = table.report(CLASS, CLASS_BRIDGE);
    assert_eq!(report, Ok(Holding { held, supported }));
}

#[test]
fn the_negotiating_calls_carry_the_same_support() {
    let row = BridgeRow {
        permitted: 0x1FF,
        ..row_3_3(1)
    };
    for (support, agreed) in [(0x80, 0x1FF), (0x17F, 0x177)] {
        let mut table = Table::start(&mcfg(), &[row]).unwrap();
        let first = osc(&mut table, [QUERY_FLAG, support, 0x3FF]);
        assert_eq!(first, [STATUS_MASKED, support, agreed]);
        let second = osc(&mut table, [QUERY_FLAG, support, agreed]);
        assert_eq!(second, [0, support, agreed]);
        assert_eq!(osc(&mut table, [0, support, agreed]), second);
        let (held, supported) = (agreed, support);
        let report = table.report(CLASS, CLASS_BRIDGE);
        assert_eq!(report, Ok(Holding { held, supported }));
    }
    // With another support DWORD the second answer is masked.
    let mut table = Table::start(&mcfg(), &[row]).unwrap();
    let first = osc(&mut table, [QUERY_FLAG, 0x80, 0x98]);
    assert_eq!(first, [0, 0x80, 0x98]);
    let second = osc(&mut table, [QUERY_FLAG, 0, 0x98]);
    assert_eq!(second, [STATUS_MASKED, 0, 0x10]);
}

#[test]
fn a_table_has_rows_of_both_editions() {
    let mut table = Table::start(&mcfg(), &[row(1), row_3_3(2)]).unwrap();
    let mut both = |capabilities| {
        [(CLASS, CLASS_BRIDGE), (LIVE, LIVE_BRIDGE)].map(|(session, bridge)| {
            let [status, _, granted] = osc_by(&mut table, session, bridge, capabilities);
            (status, granted)
        })
    };
    let masked = STATUS_MASKED;
    assert_eq!(both([QUERY_FLAG, 0, 0x02]), [(0, 0x02), (masked, 0)]);
    let aer = [QUERY_FLAG, 0x80, 0x18];
    assert_eq!(both(aer), [(0, 0x18), (masked, 0x10)]);
    let take = [0, 0x3FF, 0x3FF];
    assert_eq!(both(take), [(masked, 0x1F), (0, 0x3FF)]);
    // Each stored the support bits known in its edition.
    let holding = |held, supported| Ok(Holding { held, supported });
    let class = table.report(CLASS, CLASS_BRIDGE);
    assert_eq!(class, holding(CONTROL_ALL_3_0, SUPPORT_ALL_3_0));
    let live = table.report(LIVE, LIVE_BRIDGE);
    assert_eq!(live, holding(CONTROL_ALL_3_3, SUPPORT_ALL_3_3));
}

#[test]
fn held_bits_come_by_osc_and_leave_by_reset() {
    let mut table = taken(HOT_PLUG);
    let (held, supported) = (HOT_PLUG, 0x1F);
    let report = table.report(CLASS, CLASS_BRIDGE);
    assert_eq!(report, Ok(Holding { held, supported }));
    assert_eq!(table.reset(CLASS, CLASS_BRIDGE), Ok(()));
    let (held, supported) = (0, 0);
    let report = table.report(CLASS, CLASS_BRIDGE);
    assert_eq!(report, Ok(Holding { held, supported }));
}

#[test]
fn an_address_is_read_back() {
    let table = table();
    assert_eq!(table.address(LIVE, PLACE, 4), Ok(0xE111_3010));
    assert_eq!(table.locate(LIVE, 0xE111_3010), Ok(PLACE));
    assert_eq!(table.locate(LIVE, 0xE100_0000).unwrap().bus, 16);
    assert_eq!(table.locate(LIVE, 0xE0FF_FFFF), Err(Refusal::NoSuchBus));
}

#[test]
fn numbers_are_compared_whole() {
    let table = table();
    let width = |width| table.address(LIVE, PLACE, width).is_ok();
    assert_eq!([1, 2, 4].map(width), [true; 3]);
    assert_eq!([0, 3, 8, 257, 0x1_0004].map(width), [false; 5]);
    let block = [&type_2(), TYPE_1].concat();
    let found = |record_type| find_record(&[], &block, record_type).is_ok();
    assert_eq!([1, 2].map(found), [true; 2]);
    assert_eq!([0, 3, 0x101, 0x102].map(found), [false; 4]);
}

#[test]
fn a_block_has_4096_bytes_at_most() {
    let block = |length: usize| {
        let skipped = (length - 3 - TYPE_1.len()) as u16;
        let mut block = vec![0xFF; length - TYPE_1.len()];
        block[1..3].copy_from_slice(&skipped.to_le_bytes());
        [&block, TYPE_1].concat()
    };
    let [most, more] = [4096, 4097].map(block);
    assert_eq!(find_record(&[], &most, 1), Ok(TYPE_1));
    assert_eq!(find_record(&[], &more, 1), Err(Refusal::RecordBlock));
}

#[test]
fn a_record_is_a_part_of_the_block_that_decided() {
    let block = [&type_2(), TYPE_1].concat();
    let record = find_record(&[], &block, 1).unwrap();
    assert_eq!(record.as_ptr_range(), block[71..].as_ptr_range());
    // An equal bridge's block is not the one that decides.
    let equal = block.clone();
    let record = find_record(&block, &equal, 2).unwrap();
    assert_eq!(record.as_ptr_range(), block[..71].as_ptr_range());
}

#[test]
fn an_image_is_a_part_of_the_rom() {
    let mut rom = two_images();
    let image = find_ours(&rom).unwrap();
    assert_eq!(image.as_ptr_range(), rom[..512].as_ptr_range());
    for (code_type, asked) in (0..).zip([PC_AT, OPEN_FIRMWARE, PA_RISC]) {
        rom[0x254] = code_type;
        let image = find_image(&rom, VENDOR, DEVICE, asked).unwrap();
        assert_eq!(image.as_ptr_range(), rom[512..].as_ptr_range());
    }
}

#[test]
fn an_image_is_asked_for_by_whole_numbers() {
    let mut rom = rom(512, 1, 0x1C);
    // A device list, in a structure of revision 3, names 0x5679. It does not count.
    (rom[0x24], rom[0x28]) = (0x18, 3);
    rom[0x34..0x36].copy_from_slice(&[0x79, 0x56]);
    let found = |(vendor, device, code_type)| find_image(&rom, vendor, device, code_type).is_ok();
    assert!(found((VENDOR, DEVICE, UEFI)));
    let others = [
        (VENDOR + 1, DEVICE, UEFI),
        (VENDOR + 0x1_0000, DEVICE, UEFI),
        (VENDOR, DEVICE + 1, UEFI),
        (VENDOR, DEVICE + 0x1_0000, UEFI),
        (VENDOR, DEVICE, PA_RISC),
        (VENDOR, DEVICE, UEFI + 256),
    ];
    assert_eq!(others.map(found), [false; 6]);
}

#[test]
fn each_byte_of_an_image_counts_or_does_not() {
    let after = |at, byte| find_after(rom(512, 1, 0x1C), &[(at, byte)]);
    // Bits 0 to 6 of the indicator, and fields that are not looked at.
    for (at, byte) in [(0x31, 0x81), (0x31, 0xFF), (0x26, 0xFF), (0x28, 0xFF)] {
        assert_eq!(after(at, byte), Ok(0..512));
    }
    // The signatures, the pointer, the length and the last image.
    for at in [0, 1, 0x18, 0x1C, 0x1D, 0x1E, 0x1F, 0x2C] {
        assert_eq!(after(at, 0), Err(Refusal::Rom));
    }
    for (at, byte) in [(0x19, 1), (0x2C, 2), (0x2D, 1), (0x31, 0), (0x31, 0x7F)] {
        assert_eq!(after(at, byte), Err(Refusal::Rom));
    }
    // The vendor, the device and the code type.
    for at in [0x20, 0x21, 0x22, 0x23, 0x30] {
        assert_eq!(after(at, 0), Err(Refusal::NoImage));
    }
}

#[test]
fn an_image_and_its_structure_lie_inside_the_rom() {
    let found = |(length, pointer)| find_ours(&rom(length, 1, pointer)).map(<[u8]>::len);
    let inside = [
        (512, 0x1E8),
        (512, 0x1A),
        (1024, 0x200),
        (1024, 0x3E8),
        (65559, 0xFFFF),
    ];
    let outside = [
        (0, 0x1C),
        (0x1A, 0x1C),
        (511, 0x1C),
        (512, 0x1E9),
        (1024, 0x3E9),
        (65558, 0xFFFF),
    ];
    assert_eq!(inside.map(found), [Ok(512); 5]);
    assert_eq!(outside.map(found), [Err(Refusal::Rom); 6]);
    // The second image's pointer counts from its own start.
    let second = |pointer| find_after(and_then(rom(512, 1, pointer)), &[(0x30, 0)]);
    assert_eq!(second(0x1E8), Ok(512..1024));
    assert_eq!(second(0x1E9), Err(Refusal::Rom));
}

#[test]
fn the_whole_chain_is_checked_before_an_image_is_chosen() {
    let after = |edits: &[(usize, u8)]| find_after(two_images(), edits);
    let (other, other_too) = ((0x30, 0), (0x254, 0));
    assert_eq!(after(&[]), Ok(0..512));
    assert_eq!(after(&[other_too]), Ok(0..512));
    assert_eq!(after(&[other]), Ok(512..1536));
    assert_eq!(after(&[other, other_too]), Err(Refusal::NoImage));
    // The second image: its signatures, its pointer, its length, and that it is the last.
    let zeros = [0x200, 0x201, 0x218, 0x243, 0x250].map(|at| (at, 0));
    for broken in zeros.into_iter().chain([(0x250, 3), (0x255, 0x7F)]) {
        assert_eq!(after(&[broken]), Err(Refusal::Rom));
        assert_eq!(after(&[other, broken]), Err(Refusal::Rom));
    }
    // What comes after the last image is not looked at.
    let last = (0x31, 0x80);
    assert_eq!(after(&[last, (0x200, 0)]), Ok(0..512));
    assert_eq!(after(&[last, other]), Err(Refusal::NoImage));
}

#[test]
fn a_rom_has_16_mib_at_most() {
    let [most, more] = [MAX_ROM, MAX_ROM + 1].map(|length| rom(length, 0x8000, 0x1C));
    assert_eq!(find_ours(&most).map(<[u8]>::len), Ok(16 << 20));
    assert_eq!(find_ours(&more), Err(Refusal::Rom));
    assert_eq!(find_ours(&most[..MAX_ROM - 1]), Err(Refusal::Rom));
    let long = rom(MAX_ROM, 0x8001, 0x1C);
    assert_eq!(find_ours(&long), Err(Refusal::Rom));
}

#[test]
fn register_values_keep_the_error_registers_where_aer_is_held() {
    let current = [0x101, 0x102, 0x103, 0x104, 0x2110, 0x106, 0x107, 0x108];
    let values =
        |control| taken(control).register_values(CLASS, CLASS_BRIDGE, &type_2(), TYPE_1, &current);
    let all = [0x106, 0x106, 0x106, 0x106, 0x2116, 0x106, 0x106, 0x106];
    let two = [0x101, 0x102, 0x103, 0x104, 0x2116, 0x106, 0x107, 0x108];
    assert_eq!(values(HOT_PLUG), Ok(all));
    assert_eq!(values(HOT_PLUG | CONTROL_AER), Ok(two));
}

#[test]
fn register_values_keep_the_payload_sizes_of_device_control() {
    let values = |value: u32, masks: [u32; 2]| {
        let table = taken(HOT_PLUG);
        table.register_values(CLASS, CLASS_BRIDGE, &same_pairs(masks), &[], &[value; 8])
    };
    let but_device_control = |others, device_control| {
        let mut expect = [others; 8];
        expect[4] = device_control;
        Ok(expect)
    };
    let worked = values(0x2810, [0x5020, 0x5020]);
    assert_eq!(worked, but_device_control(0x5020, 0x2000));
    let set = values(0, [0xFFFF, 0xFFFF]);
    assert_eq!(set, but_device_control(0xFFFF, 0x8F1F));
    let cleared = values(0xFFFF, [0, 0]);
    assert_eq!(cleared, but_device_control(0, 0x70E0));
}

#[test]
fn register_values_are_each_by_their_own_pair() {
    let table = taken(HOT_PLUG);
    let becomes = |k: usize, masks, value| {
        let record = one_pair(k, masks);
        let new = table.register_values(CLASS, CLASS_BRIDGE, &record, TYPE_1, &[0x1234; 8]);
        let mut expect = [0x1234; 8];
        expect[k] = value;
        assert_eq!(new, Ok(expect));
    };
    // Bits 0 to 3 and 12 to 15 are kept, 4 to 7 cleared, 8 to 11 set.
    for k in [0, 1, 2, 3, 5, 6, 7] {
        becomes(k, [0xFF0F, 0x0F00], 0x1F04);
    }
    becomes(4, [0xFF0F, 0x0F00], 0x1F24);
    for k in [0, 1, 2, 3, 6, 7] {
        becomes(k, [u32::MAX, 1 << 31 | 1], 0x8000_1235);
    }
}

#[test]
fn register_values_are_refused_where_masks_have_no_meaning() {
    // Where AER is held six of the pairs are not used, but judged all the same.
    for control in [HOT_PLUG, HOT_PLUG | CONTROL_AER] {
        let table = taken(control);
        let values =
            |record: &[u8]| table.register_values(CLASS, CLASS_BRIDGE, record, &type_2(), &[0; 8]);
        for k in 0..8 {
            for masks in [[0xFFFE, 1], [0xFFF0, 6], [u32::MAX >> 1, 1 << 31]] {
                let mut record = one_pair(k, masks);
                assert_eq!(values(&record), Err(Refusal::RecordBlock));
                // Another revision is skipped.
                record[3] = 2;
                assert_eq!(values(&record), Err(Refusal::NoRecord));
            }
        }
    }
}

/// A call for each refusal, in the order of their numbers.
fn refused() -> [Refusal; 15] {
    let mut table = taken(HOT_PLUG);
    let mut answer = [0xAA; 12];
    let framing = table.osc(CLASS, CLASS_BRIDGE, 1, 3, &OSC_UUID, &[], &mut answer);
    assert_eq!(answer, [0xAA; 12]);
    let address = |bridge, device| {
        let place = Place {
            bridge,
            device,
            ..PLACE
        };
        table.address(CLASS, place, 4).unwrap_err()
    };
    let values = |table: Table| {
        let refused = table.register_values(CLASS, CLASS_BRIDGE, &[], &type_2(), &[0; 7]);
        refused.unwrap_err()
    };
    let write = |maximum_memory_read_byte_count| {
        let pci_x = Some(PciXSetting {
            maximum_memory_read_byte_count,
            average_maximum_outstanding_split_transactions: 0,
            total_maximum_outstanding_split_transactions: 0,
        });
        let settings = Settings {
            pci_x,
            ..Settings::default()
        };
        settings.write(&mut []).unwrap_err()
    };
    [
        address(BridgeNumber(2), 32),
        address(LIVE_BRIDGE, 32),
        framing.unwrap_err(),
        address(CLASS_BRIDGE, 31),
        address(CLASS_BRIDGE, 32),
        Table::start(&[], &[]).unwrap_err(),
        Table::start(&mcfg(), &[row(1), row(1)]).unwrap_err(),
        find_record(&[0], &[], 0).unwrap_err(),
        find_record(&[], &[], 0).unwrap_err(),
        values(taken(HOT_PLUG)),
        values(taken(CONTROL_EXPRESS_CAPABILITY)),
        find_ours(&[]).unwrap_err(),
        find_image(&two_images(), VENDOR, DEVICE, PC_AT).unwrap_err(),
        write(4),
        write(3),
    ]
}

#[test]
fn each_refusal_has_its_number() {
    for (number, refusal) in (1..).zip(refused()) {
        assert_eq!(refusal.number(), number);
        assert_eq!(Refusal::try_from(number), Ok(refusal));
    }
    assert_eq!(Refusal::try_from(0), Err(0));
    assert_eq!(Refusal::try_from(16), Err(16));
}

#[test]
fn a_table_prints_its_count_alone() {
    assert_eq!(format!("{:?}", table()), "Table { count: 2, .. }");
}

/// A table goes to another thread and is read by several; a refusal is an error.
const fn goes_between_threads<T: Send + Sync>() {}
const fn is_an_error<T: core::error::Error>() {}
const _: () = {
    goes_between_threads::<Table>();
    is_an_error::<Refusal>();
};
