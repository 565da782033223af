//! The calls that take the table as const store nothing into it, on which C's const and the crate's `&self` rest: they are made on a table
//! in read-only memory, where a store ends the program.
mod fixture;

use fixture::mcfg;
use slipwattle::osc::{
    CONTROL_ALL_3_0, CONTROL_EXPRESS_CAPABILITY, CONTROL_EXPRESS_HOT_PLUG, OSC_COUNT, OSC_REVISION,
    OSC_UUID,
};
use slipwattle::sys::{
    BridgeNumber, BridgeRow, HostBridge, MAX_ROWS, SessionNumber, Table, slipwattle_address,
    slipwattle_locate, slipwattle_osc, slipwattle_register_values, slipwattle_report,
    slipwattle_start,
};
use slipwattle::{BridgeKind, Edition};

const OWNER: SessionNumber = SessionNumber { number: 1 };
const OTHER: SessionNumber = SessionNumber { number: 2 };
const BRIDGE: BridgeNumber = BridgeNumber { number: 0 };
const WITH_AER: BridgeNumber = BridgeNumber { number: 1 };
const WITH_NOTHING: BridgeNumber = BridgeNumber { number: 2 };
const NO_BRIDGE: BridgeNumber = BridgeNumber { number: 3 };

/// What each bridge holds.
const HELD: [u32; 3] = [
    CONTROL_EXPRESS_HOT_PLUG | CONTROL_EXPRESS_CAPABILITY,
    CONTROL_ALL_3_0,
    0,
];
const SUPPORTED: u32 = 0x0F;
/// The edition of each bridge.
const EDITIONS: [Edition; 3] = [Edition::V3_0, Edition::V3_0, Edition::V3_3];

const UNUSED: HostBridge = HostBridge {
    base: 0,
    permitted: 0,
    held: 0,
    supported: 0,
    segment: 0,
    owner: SessionNumber { number: 0 },
    first_bus: 0,
    last_bus: 0,
    edition: 0,
};

/// Bridge `number`, of 16 buses, with what it holds.
const fn host_bridge(number: u8) -> HostBridge {
    HostBridge {
        base: 0xE000_0000,
        permitted: CONTROL_ALL_3_0,
        held: HELD[number as usize],
        supported: SUPPORTED,
        segment: 0,
        owner: OWNER,
        first_bus: 16 * number,
        last_bus: 16 * number + 15,
        edition: EDITIONS[number as usize] as u8,
    }
}

/// The table that `start` and taking calls give (`it_is_a_table_of_start`).
static TABLE: Table = Table {
    bridges: {
        let mut bridges = [UNUSED; MAX_ROWS];
        bridges[0] = host_bridge(0);
        bridges[1] = host_bridge(1);
        bridges[2] = host_bridge(2);
        bridges
    },
    count: 3,
};

#[test]
fn it_is_a_table_of_start() {
    let mcfg = mcfg();
    let rows = [0, 1, 2].map(|number| BridgeRow {
        permitted: CONTROL_ALL_3_0,
        segment: 0,
        owner: OWNER,
        first_bus: 16 * number,
        last_bus: 16 * number + 15,
        kind: BridgeKind::Express as u8,
        edition: EDITIONS[number as usize] as u8,
    });
    // SAFETY: each pointer leads to its length of bytes or of rows.
    let mut table =
        unsafe { slipwattle_start(mcfg.as_ptr(), mcfg.len(), rows.as_ptr(), rows.len()) }.table;
    for (bridge, held) in (0..).zip(HELD) {
        let take = [0, SUPPORTED, held].map(u32::to_le_bytes);
        let mut answer = [0; 12];
        // SAFETY: the table comes from the start, each pointer leads to its length of bytes, and what is changed overlaps nothing.
        unsafe {
            slipwattle_osc(
                &mut table,
                OWNER,
                BridgeNumber { number: bridge },
                OSC_REVISION,
                OSC_COUNT,
                OSC_UUID.as_ptr(),
                OSC_UUID.len(),
                take.as_flattened().as_ptr(),
                take.as_flattened().len(),
                answer.as_mut_ptr(),
                answer.len(),
            );
        }
    }
    assert_eq!(table, TABLE);
}

/// Whether the system lets no one write at this address.
fn read_only(address: usize) -> bool {
    let maps = std::fs::read_to_string("/proc/self/maps").unwrap();
    let line = maps.lines().find(|line| {
        let (range, _) = line.split_once(' ').unwrap();
        let (from, to) = range.split_once('-').unwrap();
        let number = |hex| usize::from_str_radix(hex, 16).unwrap();
        (number(from)..number(to)).contains(&address)
    });
    line.unwrap().contains(" r--")
}

#[test]
fn it_lies_in_read_only_memory() {
    assert!(read_only((&raw const TABLE).addr()));
    assert!(!read_only((&raw const *Box::new(TABLE)).addr()));
}

/// The owner, another session, and no such bridge: (session, bridge, number).
const CALLERS: [(SessionNumber, BridgeNumber, u8); 3] = [
    (OWNER, BRIDGE, 0),
    (OTHER, BRIDGE, 2),
    (OWNER, NO_BRIDGE, 1),
];

#[test]
fn report_and_address_do_not_store() {
    for (session, bridge, number) in CALLERS {
        // SAFETY: it is a table of start, which these calls are to leave as it is.
        let (reported, addressed) = unsafe {
            (
                slipwattle_report(&TABLE, session, bridge),
                slipwattle_address(&TABLE, session, bridge, 1, 2, 3, 0x10, 4),
            )
        };
        assert_eq!((reported.number, addressed.number), (number, number));
    }
    for (bus, device, number) in [(1, 32, 5), (16, 2, 4)] {
        // SAFETY: as above.
        let a = unsafe { slipwattle_address(&TABLE, OWNER, BRIDGE, bus, device, 3, 0x10, 4) };
        assert_eq!(a.number, number);
    }
}

#[test]
fn locate_does_not_store() {
    for (session, number) in [(OWNER, 0), (OTHER, 4)] {
        // SAFETY: it is a table of start, which the call is to leave as it is.
        let located = unsafe { slipwattle_locate(&TABLE, session, 0xE011_3010) };
        assert_eq!(located.number, number);
    }
}

#[test]
fn register_values_does_not_store() {
    let mut block = [0; 71];
    block[..4].copy_from_slice(&[2, 68, 0, 1]);
    let current = [0; 8];
    let values = |session, bridge, block: &[u8], current: &[u32]| {
        // SAFETY: each pointer leads to its length; it is a table of start, which the call is to leave as it is.
        unsafe {
            slipwattle_register_values(
                &TABLE,
                session,
                bridge,
                block.as_ptr(),
                block.len(),
                [].as_ptr(),
                0,
                current.as_ptr(),
                current.len(),
            )
        }
    };
    for (session, bridge, number) in CALLERS {
        assert_eq!(values(session, bridge, &block, &current).number, number);
    }
    assert_eq!(values(OWNER, WITH_AER, &block, &current).number, 0);
    assert_eq!(values(OWNER, WITH_NOTHING, &block, &current).number, 11);
    assert_eq!(values(OWNER, BRIDGE, &block, &[]).number, 10);
    assert_eq!(values(OWNER, BRIDGE, &block[..70], &current).number, 8);
    assert_eq!(values(OWNER, BRIDGE, &[], &current).number, 9);
}
