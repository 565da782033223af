//! Inputs for the tests, built byte by byte.

use reference::{BridgeNumber, BridgeRow, Refusal, SessionNumber, Table};

/// The session that owns the bridges of these tests.
pub const OWNER: SessionNumber = SessionNumber(3);
/// A session that owns none of them.
pub const STRANGER: SessionNumber = SessionNumber(4);
/// The first bridge.
pub const BRIDGE: BridgeNumber = BridgeNumber(0);
/// A bridge that no table of these tests has.
pub const ABSENT: BridgeNumber = BridgeNumber(64);
/// The base of the MCFG entry of these tests.
pub const BASE: u64 = 0xE000_0000;
/// The kinds of a row.
pub const EXPRESS: u8 = 0;
pub const CONVENTIONAL: u8 = 1;
/// The editions of a row.
pub const OLD: u8 = 0;
pub const EDITION_3_3: u8 = 1;
/// The UUID as it stands in the buffer.
pub const UUID: [u8; 16] = [
    0x5B, 0x4D, 0xDB, 0x33, 0xF7, 0x1F, 0x1C, 0x40, 0x96, 0x57, 0x74, 0x41, 0xC0, 0x3D, 0xD7, 0x66,
];
/// What an answer buffer holds before the call.
pub const UNTOUCHED: u8 = 0xA5;

/// One MCFG entry: base, segment, start bus, end bus.
pub type Entry = (u64, u16, u8, u8);

/// An MCFG table with these entries, length and checksum right.
pub fn mcfg(entries: &[Entry]) -> Vec<u8> {
    let mut table = vec![0; 44];
    table[..4].copy_from_slice(b"MCFG");
    table[8] = 1;
    table[10..36].fill(0x5A);
    table[36..44].fill(0xC3);
    for &(base, segment, start, end) in entries {
        table.extend(base.to_le_bytes());
        table.extend(segment.to_le_bytes());
        table.extend([start, end, 1, 2, 3, 4]);
    }
    let length = table.len() as u32;
    table[4..8].copy_from_slice(&length.to_le_bytes());
    with_checksum(table)
}

/// The table with its checksum set right.
pub fn with_checksum(mut table: Vec<u8>) -> Vec<u8> {
    let sum = table.iter().fold(0u8, |sum, &byte| sum.wrapping_add(byte));
    table[9] = table[9].wrapping_sub(sum);
    table
}

/// An Express row of the owner in segment 0, of the old edition.
pub fn row(first_bus: u8, last_bus: u8, permitted: u32) -> BridgeRow {
    BridgeRow {
        owner: OWNER,
        segment: 0,
        first_bus,
        last_bus,
        kind: EXPRESS,
        permitted,
        edition: OLD,
    }
}

/// The same of edition 3.3.
pub fn row_3_3(first_bus: u8, last_bus: u8, permitted: u32) -> BridgeRow {
    BridgeRow {
        edition: EDITION_3_3,
        ..row(first_bus, last_bus, permitted)
    }
}

/// Starts with these entries and rows.
pub fn start(entries: &[Entry], rows: &[BridgeRow]) -> Result<Table, Refusal> {
    Table::start(&mcfg(entries), rows)
}

/// A table with one Express bridge on buses 0 to 255, of the old edition.
pub fn one_bridge(permitted: u32) -> Table {
    start(&[(BASE, 0, 0, 255)], &[row(0, 255, permitted)]).unwrap()
}

/// The same of edition 3.3.
pub fn one_bridge_3_3(permitted: u32) -> Table {
    start(&[(BASE, 0, 0, 255)], &[row_3_3(0, 255, permitted)]).unwrap()
}

/// A table with one Express bridge of the old edition that holds these bits.
pub fn holding(permitted: u32, held: u32) -> Table {
    let mut table = one_bridge(permitted);
    let [_, _, granted] = osc(&mut table, 0, 0, held);
    assert_eq!(granted, held);
    table
}

/// The held bits of the first bridge.
pub fn held(table: &Table) -> u32 {
    table.report(OWNER, BRIDGE).unwrap().held
}

/// DWORDs as bytes.
pub fn dwords(numbers: &[u32]) -> Vec<u8> {
    numbers.iter().flat_map(|n| n.to_le_bytes()).collect()
}

/// Bytes as DWORDs.
pub fn numbers(bytes: &[u8]) -> Vec<u32> {
    let (dwords, rest) = bytes.as_chunks();
    assert!(rest.is_empty());
    dwords.iter().copied().map(u32::from_le_bytes).collect()
}

/// A call of the owner on the first bridge, with right framing, UUID, revision and Count 3.
pub fn osc(table: &mut Table, status: u32, support: u32, control: u32) -> [u32; 3] {
    osc_on(table, BRIDGE, status, support, control)
}

/// The same on any bridge.
pub fn osc_on(
    table: &mut Table,
    bridge: BridgeNumber,
    status: u32,
    support: u32,
    control: u32,
) -> [u32; 3] {
    let capabilities = dwords(&[status, support, control]);
    let mut answer = [UNTOUCHED; 12];
    table
        .osc(OWNER, bridge, 1, 3, &UUID, &capabilities, &mut answer)
        .unwrap();
    numbers(&answer).try_into().unwrap()
}

/// A framed call of the owner on the first bridge.
pub fn osc_call(table: &mut Table, revision: u32, uuid: &[u8], capabilities: &[u8]) -> Vec<u32> {
    let count = (capabilities.len() / 4) as u32;
    let mut answer = vec![UNTOUCHED; capabilities.len()];
    table
        .osc(
            OWNER,
            BRIDGE,
            revision,
            count,
            uuid,
            capabilities,
            &mut answer,
        )
        .unwrap();
    numbers(&answer)
}

/// A field: tag, length, value.
pub fn field(tag: u8, value: &[u8]) -> Vec<u8> {
    let mut bytes = vec![tag];
    bytes.extend((value.len() as u16).to_le_bytes());
    bytes.extend(value);
    bytes
}

/// A field of numbers, the first being the revision.
pub fn record(tag: u8, numbers: &[u32]) -> Vec<u8> {
    field(tag, &dwords(numbers))
}

/// The PCI setting record of the example.
pub fn pci() -> Vec<u8> {
    record(0, &[1, 8, 0x40, 1, 0])
}

/// The PCI-X setting record of the example.
pub fn pci_x() -> Vec<u8> {
    record(1, &[1, 3, 4, 7])
}

/// A PCI Express setting record with the same AND and OR mask for every register.
pub fn express(and_mask: u32, or_mask: u32) -> Vec<u8> {
    record(2, &express_numbers(and_mask, or_mask))
}

/// The numbers of such a record, revision first, 16-bit masks cut to size.
pub fn express_numbers(and_mask: u32, or_mask: u32) -> [u32; 17] {
    let mut numbers = [1; 17];
    for (register, pair) in numbers[1..].chunks_exact_mut(2).enumerate() {
        let size = if matches!(register, 4 | 5) {
            0xFFFF
        } else {
            u32::MAX
        };
        pair.copy_from_slice(&[and_mask & size, or_mask & size]);
    }
    numbers
}

/// Such numbers, each pair with a meaning, but for one register this pair.
pub fn express_numbers_with(register: usize, pair: [u32; 2]) -> [u32; 17] {
    let mut numbers = express_numbers(0xFFFF_FF0F, 0x0009);
    numbers[1 + 2 * register..][..2].copy_from_slice(&pair);
    numbers
}

/// A record with these numbers.
pub fn express_with(register: usize, pair: [u32; 2]) -> Vec<u8> {
    record(2, &express_numbers_with(register, pair))
}

/// An image of a ROM: what its header and its structure say.
#[derive(Clone, Copy)]
pub struct Image {
    pub pointer: u16,
    pub vendor: u16,
    pub device: u16,
    /// The length in units of 512 bytes.
    pub units: u16,
    pub code_type: u8,
    pub indicator: u8,
}

/// A last image of 512 bytes.
pub const LAST: Image = Image {
    pointer: 0x1C,
    vendor: 0x8086,
    device: 0x1234,
    units: 1,
    code_type: 3,
    indicator: 0x80,
};
/// The same, but another follows.
pub const MIDDLE: Image = Image {
    indicator: 0,
    ..LAST
};

impl Image {
    /// Lays header and structure down in a ROM where the image starts at its first byte.
    pub fn lay(&self, rom: &mut [u8]) {
        rom[..2].copy_from_slice(&[0x55, 0xAA]);
        rom[0x18..0x1A].copy_from_slice(&self.pointer.to_le_bytes());
        let structure = &mut rom[usize::from(self.pointer)..][..24];
        structure[..4].copy_from_slice(b"PCIR");
        structure[4..6].copy_from_slice(&self.vendor.to_le_bytes());
        structure[6..8].copy_from_slice(&self.device.to_le_bytes());
        structure[0x10..0x12].copy_from_slice(&self.units.to_le_bytes());
        structure[0x14] = self.code_type;
        structure[0x15] = self.indicator;
    }

    /// The image in a ROM of this length, which it starts.
    pub fn in_rom(&self, length: usize) -> Vec<u8> {
        let mut rom = vec![UNTOUCHED; length];
        self.lay(&mut rom);
        rom
    }

    /// The image by itself.
    pub fn bytes(&self) -> Vec<u8> {
        self.in_rom(512 * usize::from(self.units))
    }
}
