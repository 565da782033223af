//! Refusal numbers, and which comes first when two conditions hold.

use crate::build::*;
use reference::{
    BridgeNumber, BridgeRow, PciXSetting, Refusal, SessionNumber, Settings, Table, find_image,
    write_records,
};

#[test]
fn numbers() {
    let all = [
        Refusal::NoSuchBridge,
        Refusal::NotOwner,
        Refusal::Framing,
        Refusal::NoSuchBus,
        Refusal::BadPlace,
        Refusal::Mcfg,
        Refusal::Rows,
        Refusal::RecordBlock,
        Refusal::NoRecord,
        Refusal::Registers,
        Refusal::NoHotPlug,
        Refusal::Rom,
        Refusal::NoImage,
        Refusal::RecordValue,
        Refusal::ShortBuffer,
    ];
    assert!(all.map(Refusal::number).into_iter().eq(1..=15));
}

#[test]
fn start_6_then_7() {
    let entry = (BASE, 0, 0, 255);
    let mut bad_mcfg = mcfg(&[entry]);
    bad_mcfg[9] ^= 1;
    let bad_buses = row(1, 0, 0);
    let bad_kind = BridgeRow {
        kind: 2,
        ..row(0, 1, 0)
    };
    let bad_edition = |edition| BridgeRow {
        edition,
        ..row(0, 1, 0)
    };
    let bad_bits = [row(0, 1, 0x20), row_3_3(0, 1, 0x400)];
    for bad_row in [
        bad_buses,
        bad_kind,
        bad_edition(2),
        bad_edition(255),
        bad_bits[0],
        bad_bits[1],
    ] {
        let refused = Table::start(&bad_mcfg, &[bad_row]);
        assert_eq!(refused.err(), Some(Refusal::Mcfg));
        assert_eq!(start(&[entry], &[bad_row]).err(), Some(Refusal::Rows));
    }
    assert_eq!(start(&[], &[row(0, 1, 0)]).err(), Some(Refusal::Rows));
}

/// An _OSC call with wrong framing, which leaves table and answer as they were.
fn wrong_osc(session: SessionNumber, bridge: BridgeNumber) -> Result<(), Refusal> {
    let mut table = one_bridge(0x1F);
    let before = format!("{table:?}");
    let mut answer = [UNTOUCHED; 12];
    let result = table.osc(session, bridge, 2, 9, &[], &[0; 5], &mut answer);
    assert_eq!(answer, [UNTOUCHED; 12]);
    assert_eq!(format!("{table:?}"), before);
    result
}

#[test]
fn osc_1_2_3() {
    assert_eq!(wrong_osc(STRANGER, ABSENT), Err(Refusal::NoSuchBridge));
    assert_eq!(
        wrong_osc(STRANGER, BridgeNumber(1)),
        Err(Refusal::NoSuchBridge)
    );
    assert_eq!(wrong_osc(STRANGER, BRIDGE), Err(Refusal::NotOwner));
    assert_eq!(wrong_osc(OWNER, BRIDGE), Err(Refusal::Framing));
}

#[test]
fn stranger_takes_nothing() {
    let mut table = one_bridge(0x1F);
    let before = format!("{table:?}");
    let mut answer = [UNTOUCHED; 12];
    let capabilities = dwords(&[0, 0x1F, 0x1F]);
    let refused = table.osc(STRANGER, BRIDGE, 1, 3, &UUID, &capabilities, &mut answer);
    assert_eq!(refused, Err(Refusal::NotOwner));
    assert_eq!(answer, [UNTOUCHED; 12]);
    assert_eq!(format!("{table:?}"), before);
}

#[test]
fn reset_and_report_1_2() {
    let mut table = holding(0x1F, 0x1F);
    assert_eq!(table.reset(STRANGER, ABSENT), Err(Refusal::NoSuchBridge));
    assert_eq!(table.reset(STRANGER, BRIDGE), Err(Refusal::NotOwner));
    assert_eq!(table.report(STRANGER, ABSENT), Err(Refusal::NoSuchBridge));
    assert_eq!(table.report(STRANGER, BRIDGE), Err(Refusal::NotOwner));
    assert_eq!(held(&table), 0x1F);
}

#[test]
fn address_1_2_5_4() {
    let table = start(&[(BASE, 0, 0, 255)], &[row(2, 5, 0)]).unwrap();
    for bus in [9, 256 + 2] {
        let at = |session, bridge, device| table.address(session, bridge, bus, device, 0, 0, 4);
        for device in [32, 256] {
            assert_eq!(at(STRANGER, ABSENT, device), Err(Refusal::NoSuchBridge));
            assert_eq!(at(STRANGER, BRIDGE, device), Err(Refusal::NotOwner));
            assert_eq!(at(OWNER, BRIDGE, device), Err(Refusal::BadPlace));
        }
        assert_eq!(at(OWNER, BRIDGE, 31), Err(Refusal::NoSuchBus));
    }
}

#[test]
fn register_values_1_2_11_10_8_9() {
    let none = one_bridge(0x1F);
    let hot_plug = holding(0x1F, 0x11);
    let sound = pci();
    let (short, full) = ([0; 7], [0; 8]);
    let refused = |table: &Table, session, bridge, block: &[u8], current: &[u32]| {
        let values = table.register_values(session, bridge, block, &[], current);
        values.unwrap_err().number()
    };
    let senseless = express(0xFFFF_FFF0, 0x6);
    for unsound in [vec![0, 3, 0], senseless] {
        assert_eq!(refused(&none, STRANGER, ABSENT, &unsound, &short), 1);
        assert_eq!(refused(&none, STRANGER, BRIDGE, &unsound, &short), 2);
        assert_eq!(refused(&none, OWNER, BRIDGE, &unsound, &short), 11);
        assert_eq!(refused(&hot_plug, OWNER, BRIDGE, &unsound, &short), 10);
        assert_eq!(refused(&hot_plug, OWNER, BRIDGE, &unsound, &full), 8);
    }
    assert_eq!(refused(&hot_plug, OWNER, BRIDGE, &sound, &full), 9);
}

#[test]
fn rom_12_then_13() {
    let refused = |rom: &[u8]| find_image(rom, 0, 0, 0).unwrap_err().number();
    let sound = LAST.bytes();
    assert_eq!(refused(&sound), 13);
    assert_eq!(refused(&MIDDLE.bytes()), 12);
    let mut large = sound;
    large.resize(16_777_216, 0);
    assert_eq!(refused(&large), 13);
    large.push(0);
    assert_eq!(refused(&large), 12);
}

#[test]
fn writer_14_then_15() {
    let read_count = |maximum_memory_read_byte_count| Settings {
        pci_x: Some(PciXSetting {
            maximum_memory_read_byte_count,
            ..PciXSetting::default()
        }),
        ..Settings::default()
    };
    let refused = |settings: &Settings, length| {
        let mut buffer = vec![UNTOUCHED; length];
        let number = write_records(*settings, &mut buffer).map_err(Refusal::number);
        assert!(buffer.iter().all(|&byte| byte == UNTOUCHED));
        number.unwrap_err()
    };
    let (bad, right) = (read_count(4), read_count(3));
    assert_eq!(refused(&bad, 0), 14);
    assert_eq!(refused(&bad, 18), 14);
    assert_eq!(refused(&bad, 19), 14);
    assert_eq!(refused(&right, 18), 15);
    assert_eq!(refused(&right, 0), 15);
}
