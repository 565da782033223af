//! The boundary itself: the types and the calls of `include/slipwattle.h`, one to one. The header says what each call promises and what
//! its caller sees to.

#[cfg(not(all(target_arch = "x86_64", target_pointer_width = "64", not(windows))))]
compile_error!(
    "the proved library is machine code for x86-64 with the System V calling convention"
);

use core::mem::{align_of, offset_of, size_of};

/// The most rows of a starting list; a table has a bridge for each.
pub const MAX_ROWS: usize = 64;
/// The registers of a type 2 record.
pub const REGISTERS: usize = 8;
/// The most bytes of a ROM: 16 MiB.
pub const MAX_ROM: usize = 16_777_216;
/// The most bytes that the writer of records writes.
pub const MAX_WRITTEN: usize = 113;

/// `slipwattle_session`.
#[repr(C)]
#[derive(Clone, Copy, Debug, PartialEq, Eq)]
pub struct SessionNumber {
    /// The number.
    pub number: u8,
}

/// `slipwattle_bridge`.
#[repr(C)]
#[derive(Clone, Copy, Debug, PartialEq, Eq)]
pub struct BridgeNumber {
    /// The number.
    pub number: u8,
}

/// `slipwattle_bridge_row`: a row of the starting list.
#[repr(C)]
#[derive(Clone, Copy, Debug, PartialEq, Eq)]
pub struct BridgeRow {
    /// The control bits that may be granted.
    pub permitted: u32,
    /// The PCI segment.
    pub segment: u16,
    /// The session that owns the bridge.
    pub owner: SessionNumber,
    /// The first bus.
    pub first_bus: u8,
    /// The last bus.
    pub last_bus: u8,
    /// The kind: 0 Express, 1 conventional; any other is refused.
    pub kind: u8,
    /// The edition: 0 for 3.0, 1 for 3.3; any other is refused.
    pub edition: u8,
}

/// `slipwattle_host_bridge`: a host bridge as the table keeps it. For the calls alone.
#[repr(C)]
#[derive(Clone, Copy, Debug, PartialEq, Eq)]
pub struct HostBridge {
    /// The ECAM base address of bus 0.
    pub base: u64,
    /// The control bits that may be granted.
    pub permitted: u32,
    /// The control bits that were granted.
    pub held: u32,
    /// The support bits that were told.
    pub supported: u32,
    /// The PCI segment.
    pub segment: u16,
    /// The session that owns the bridge.
    pub owner: SessionNumber,
    /// The first bus.
    pub first_bus: u8,
    /// The last bus.
    pub last_bus: u8,
    /// The edition.
    pub edition: u8,
}

/// `slipwattle_table`: the table of host bridges, 2056 bytes. For the calls alone.
#[repr(C)]
#[derive(Clone, Copy, Debug, PartialEq, Eq)]
pub struct Table {
    /// The bridges by number.
    pub bridges: [HostBridge; MAX_ROWS],
    /// How many bridges there are.
    pub count: usize,
}

/// `slipwattle_started`.
#[repr(C)]
#[derive(Clone, Copy, Debug, PartialEq, Eq)]
pub struct Started {
    /// The new table.
    pub table: Table,
    /// 0 or the refusal.
    pub number: u8,
}

/// `slipwattle_holding`.
#[repr(C)]
#[derive(Clone, Copy, Debug, PartialEq, Eq)]
pub struct Holding {
    /// The held control bits.
    pub held: u32,
    /// The supported bits.
    pub supported: u32,
}

/// `slipwattle_reported`.
#[repr(C)]
#[derive(Clone, Copy, Debug, PartialEq, Eq)]
pub struct Reported {
    /// 0 or the refusal.
    pub number: u8,
    /// What the bridge holds.
    pub holding: Holding,
}

/// `slipwattle_addressed`.
#[repr(C)]
#[derive(Clone, Copy, Debug, PartialEq, Eq)]
pub struct Addressed {
    /// 0 or the refusal.
    pub number: u8,
    /// The ECAM address.
    pub address: u64,
}

/// `slipwattle_place`.
#[repr(C)]
#[derive(Clone, Copy, Debug, PartialEq, Eq)]
pub struct Place {
    /// The bridge.
    pub bridge: BridgeNumber,
    /// The bus.
    pub bus: u8,
    /// The device.
    pub device: u8,
    /// The function.
    pub function: u8,
    /// The offset in the function's configuration space.
    pub offset: u16,
}

/// `slipwattle_located`.
#[repr(C)]
#[derive(Clone, Copy, Debug, PartialEq, Eq)]
pub struct Located {
    /// 0 or the refusal.
    pub number: u8,
    /// The place.
    pub place: Place,
}

/// `slipwattle_record`: where a record lies in the block that decided.
#[repr(C)]
#[derive(Clone, Copy, Debug, PartialEq, Eq)]
pub struct RecordAt {
    /// 0 or the refusal.
    pub number: u8,
    /// Whether the slot's block decided.
    pub in_slot: bool,
    /// The byte where the record starts.
    pub start: usize,
    /// Its length, header included.
    pub size: usize,
}

/// `slipwattle_pci_setting`: the values of a PCI setting record, type 0 (ACPI, table 6-7 of document 002).
#[repr(C)]
#[derive(Clone, Copy, Debug, PartialEq, Eq)]
pub struct PciSetting {
    /// In DWORDs, at most 255.
    pub cache_line_size: u32,
    /// In PCI clock cycles, at most 255.
    pub latency_timer: u32,
    /// 0 or 1.
    pub enable_serr: u32,
    /// 0 or 1.
    pub enable_perr: u32,
}

/// `slipwattle_pci_x_setting`: the values of a PCI-X setting record, type 1 (table 6-8, which says what each number stands for).
#[repr(C)]
#[derive(Clone, Copy, Debug, PartialEq, Eq)]
pub struct PciXSetting {
    /// At most 3.
    pub maximum_memory_read_byte_count: u32,
    /// At most 7.
    pub average_maximum_outstanding_split_transactions: u32,
    /// At most 7.
    pub total_maximum_outstanding_split_transactions: u32,
}

/// `slipwattle_masks`: a register's masks. AND 1 and OR 0 keep a bit, both 0 clear it, both 1 set it. So AND has the bits to keep or to
/// set, OR those to set. A bit clear in AND and set in OR has no meaning: 8 in a block, 14 from the writer. The header has `and_mask` and
/// `or_mask`, since `and` and `or` are operators in C++.
#[repr(C)]
#[derive(Clone, Copy, Debug, PartialEq, Eq)]
pub struct Masks {
    /// The AND mask.
    pub and: u32,
    /// The OR mask.
    pub or: u32,
}

/// `slipwattle_express_setting`: the values of a PCI Express setting record, type 2 (table 6-9).
#[repr(C)]
#[derive(Clone, Copy, Debug, PartialEq, Eq)]
pub struct ExpressSetting {
    /// Uncorrectable Error Mask.
    pub uncorrectable_error_mask: Masks,
    /// Uncorrectable Error Severity.
    pub uncorrectable_error_severity: Masks,
    /// Correctable Error Mask.
    pub correctable_error_mask: Masks,
    /// Advanced Error Capabilities and Control.
    pub advanced_error_capabilities_and_control: Masks,
    /// Device Control, at most 65535 each.
    pub device_control: Masks,
    /// Link Control, at most 65535 each.
    pub link_control: Masks,
    /// Secondary Uncorrectable Error Severity.
    pub secondary_uncorrectable_error_severity: Masks,
    /// Secondary Uncorrectable Error Mask.
    pub secondary_uncorrectable_error_mask: Masks,
}

/// `slipwattle_settings`: at most one record of each type. The values of one that is not present count for nothing.
#[repr(C)]
#[derive(Clone, Copy, Debug, PartialEq, Eq)]
pub struct Settings {
    /// The record of type 2.
    pub express: ExpressSetting,
    /// The record of type 0.
    pub pci: PciSetting,
    /// The record of type 1.
    pub pci_x: PciXSetting,
    /// Whether that of type 0 is present: any number but 0.
    pub has_pci: u8,
    /// Whether that of type 1 is.
    pub has_pci_x: u8,
    /// Whether that of type 2 is.
    pub has_express: u8,
}

/// `slipwattle_written`.
#[repr(C)]
#[derive(Clone, Copy, Debug, PartialEq, Eq)]
pub struct Written {
    /// 0 or the refusal.
    pub number: u8,
    /// How many bytes at the start of the buffer are the block.
    pub length: usize,
}

/// `slipwattle_image`: where an image lies in the ROM.
#[repr(C)]
#[derive(Clone, Copy, Debug, PartialEq, Eq)]
pub struct ImageAt {
    /// 0 or the refusal.
    pub number: u8,
    /// The byte where the image starts.
    pub start: usize,
    /// Its length, header included.
    pub size: usize,
}

/// `slipwattle_values`.
#[repr(C)]
#[derive(Clone, Copy, Debug, PartialEq, Eq)]
pub struct Values {
    /// 0 or the refusal.
    pub number: u8,
    /// The new register values.
    pub values: [u32; REGISTERS],
}

// The layout that the calls are compiled for; tests/c/boundary.c has the same numbers.
const _: () = {
    assert!(size_of::<SessionNumber>() == 1 && size_of::<BridgeNumber>() == 1);
    assert!(size_of::<BridgeRow>() == 12 && align_of::<BridgeRow>() == 4);
    assert!(offset_of!(BridgeRow, permitted) == 0 && offset_of!(BridgeRow, segment) == 4);
    assert!(offset_of!(BridgeRow, owner) == 6 && offset_of!(BridgeRow, first_bus) == 7);
    assert!(offset_of!(BridgeRow, last_bus) == 8 && offset_of!(BridgeRow, kind) == 9);
    assert!(offset_of!(BridgeRow, edition) == 10);
    assert!(size_of::<HostBridge>() == 32 && align_of::<HostBridge>() == 8);
    assert!(offset_of!(HostBridge, base) == 0 && offset_of!(HostBridge, permitted) == 8);
    assert!(offset_of!(HostBridge, held) == 12 && offset_of!(HostBridge, supported) == 16);
    assert!(offset_of!(HostBridge, segment) == 20 && offset_of!(HostBridge, owner) == 22);
    assert!(offset_of!(HostBridge, first_bus) == 23 && offset_of!(HostBridge, last_bus) == 24);
    assert!(offset_of!(HostBridge, edition) == 25);
    assert!(size_of::<Table>() == 2056 && align_of::<Table>() == 8);
    assert!(offset_of!(Table, bridges) == 0 && offset_of!(Table, count) == 2048);
    assert!(size_of::<Started>() == 2064 && offset_of!(Started, number) == 2056);
    assert!(size_of::<Holding>() == 8 && offset_of!(Holding, supported) == 4);
    assert!(size_of::<Reported>() == 12 && offset_of!(Reported, holding) == 4);
    assert!(size_of::<Addressed>() == 16 && offset_of!(Addressed, address) == 8);
    assert!(size_of::<Place>() == 6 && offset_of!(Place, bus) == 1);
    assert!(offset_of!(Place, device) == 2 && offset_of!(Place, function) == 3);
    assert!(offset_of!(Place, offset) == 4);
    assert!(size_of::<Located>() == 8 && offset_of!(Located, place) == 2);
    assert!(size_of::<RecordAt>() == 24 && offset_of!(RecordAt, in_slot) == 1);
    assert!(offset_of!(RecordAt, start) == 8 && offset_of!(RecordAt, size) == 16);
    assert!(size_of::<PciSetting>() == 16 && offset_of!(PciSetting, cache_line_size) == 0);
    assert!(offset_of!(PciSetting, latency_timer) == 4);
    assert!(offset_of!(PciSetting, enable_serr) == 8 && offset_of!(PciSetting, enable_perr) == 12);
    assert!(size_of::<PciXSetting>() == 12);
    assert!(offset_of!(PciXSetting, maximum_memory_read_byte_count) == 0);
    assert!(offset_of!(PciXSetting, average_maximum_outstanding_split_transactions) == 4);
    assert!(offset_of!(PciXSetting, total_maximum_outstanding_split_transactions) == 8);
    assert!(size_of::<Masks>() == 8 && offset_of!(Masks, and) == 0 && offset_of!(Masks, or) == 4);
    assert!(size_of::<ExpressSetting>() == 64);
    assert!(offset_of!(ExpressSetting, uncorrectable_error_mask) == 0);
    assert!(offset_of!(ExpressSetting, uncorrectable_error_severity) == 8);
    assert!(offset_of!(ExpressSetting, correctable_error_mask) == 16);
    assert!(offset_of!(ExpressSetting, advanced_error_capabilities_and_control) == 24);
    assert!(offset_of!(ExpressSetting, device_control) == 32);
    assert!(offset_of!(ExpressSetting, link_control) == 40);
    assert!(offset_of!(ExpressSetting, secondary_uncorrectable_error_severity) == 48);
    assert!(offset_of!(ExpressSetting, secondary_uncorrectable_error_mask) == 56);
    assert!(size_of::<Settings>() == 96 && align_of::<Settings>() == 4);
    assert!(offset_of!(Settings, express) == 0 && offset_of!(Settings, pci) == 64);
    assert!(offset_of!(Settings, pci_x) == 80 && offset_of!(Settings, has_pci) == 92);
    assert!(offset_of!(Settings, has_pci_x) == 93 && offset_of!(Settings, has_express) == 94);
    assert!(size_of::<Written>() == 16 && offset_of!(Written, number) == 0);
    assert!(offset_of!(Written, length) == 8);
    assert!(size_of::<ImageAt>() == 24 && offset_of!(ImageAt, number) == 0);
    assert!(offset_of!(ImageAt, start) == 8 && offset_of!(ImageAt, size) == 16);
    assert!(size_of::<Values>() == 36 && offset_of!(Values, values) == 4);
};

unsafe extern "C" {
    /// Starts a table.
    pub fn slipwattle_start(
        mcfg: *const u8,
        mcfg_length: usize,
        rows: *const BridgeRow,
        row_count: usize,
    ) -> Started;

    /// Answers an _OSC call.
    pub fn slipwattle_osc(
        table: *mut Table,
        session: SessionNumber,
        bridge: BridgeNumber,
        revision: u32,
        count: u32,
        uuid: *const u8,
        uuid_length: usize,
        capabilities: *const u8,
        capabilities_length: usize,
        answer: *mut u8,
        answer_length: usize,
    ) -> u8;

    /// Sets the bridge's held and supported bits to 0.
    pub fn slipwattle_reset(table: *mut Table, session: SessionNumber, bridge: BridgeNumber) -> u8;

    /// Hands back the bridge's held and supported bits.
    pub fn slipwattle_report(
        table: *const Table,
        session: SessionNumber,
        bridge: BridgeNumber,
    ) -> Reported;

    /// The ECAM address of a place.
    pub fn slipwattle_address(
        table: *const Table,
        session: SessionNumber,
        bridge: BridgeNumber,
        bus: u32,
        device: u32,
        function: u32,
        offset: u32,
        width: u32,
    ) -> Addressed;

    /// Reads an address back.
    pub fn slipwattle_locate(table: *const Table, session: SessionNumber, address: u64) -> Located;

    /// Finds the revision 1 _HPX setting record of a type.
    pub fn slipwattle_find_record(
        slot: *const u8,
        slot_length: usize,
        bridge_block: *const u8,
        bridge_block_length: usize,
        record_type: u32,
    ) -> RecordAt;

    /// Writes the present records at the start of the buffer.
    pub fn slipwattle_write_records(
        settings: Settings,
        buffer: *mut u8,
        buffer_length: usize,
    ) -> Written;

    /// Finds the first expansion ROM image with this vendor, device and code type.
    pub fn slipwattle_find_image(
        rom: *const u8,
        rom_length: usize,
        vendor: u32,
        device: u32,
        code_type: u32,
    ) -> ImageAt;

    /// The new register values by the type 2 record of the blocks.
    pub fn slipwattle_register_values(
        table: *const Table,
        session: SessionNumber,
        bridge: BridgeNumber,
        slot: *const u8,
        slot_length: usize,
        bridge_block: *const u8,
        bridge_block_length: usize,
        current: *const u32,
        current_length: usize,
    ) -> Values;
}
