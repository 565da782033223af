//! What [`Table::osc`](crate::Table::osc) is told and answers in numbers. Each has the name that it has in the C header, without
//! `SLIPWATTLE_`.
//!
//! The titles of support and control bits are those of tables 4-4 and 4-5 of the PCI Firmware Specification 3.3. Which of them are known,
//! and what a control bit needs, goes by the [`Edition`](crate::Edition) of the bridge's row.
//!
//! Granted is the largest set of requested known control bits in which each is held, or is permitted and has the control bits that it needs
//! in the set and the support bits that it needs declared: by this call, or among the bridge's supported bits. So a held bit serves another
//! only if the same call requests it too.

/// The UUID as it stands in the buffer.
pub const OSC_UUID: [u8; 16] = *b"\x5B\x4D\xDB\x33\xF7\x1F\x1C\x40\x96\x57\x74\x41\xC0\x3D\xD7\x66";
/// The revision.
pub const OSC_REVISION: u32 = 1;
/// The Count of DWORDs: status, support, control.
pub const OSC_COUNT: u32 = 3;

/// In the capabilities' first DWORD: the call is a query, which changes nothing.
pub const QUERY_FLAG: u32 = 0x01;

/// In the answer's first DWORD: the Count is not [`OSC_COUNT`].
pub const STATUS_FAILURE: u32 = 0x02;
/// In the answer's first DWORD: the UUID is not [`OSC_UUID`].
pub const STATUS_UNKNOWN_UUID: u32 = 0x04;
/// In the answer's first DWORD: the revision is not [`OSC_REVISION`].
pub const STATUS_UNKNOWN_REVISION: u32 = 0x08;
/// In the answer's first DWORD: a requested control bit is not granted.
pub const STATUS_MASKED: u32 = 0x10;

/// Support bit 0: Extended PCI Config operation regions supported.
pub const SUPPORT_EXTENDED_CONFIG: u32 = 0x01;
/// Support bit 1: Active State Power Management supported.
pub const SUPPORT_ACTIVE_STATE_POWER_MANAGEMENT: u32 = 0x02;
/// Support bit 2: Clock Power Management supported.
pub const SUPPORT_CLOCK_POWER_MANAGEMENT: u32 = 0x04;
/// Support bit 3: PCI Segment Groups supported.
pub const SUPPORT_SEGMENT_GROUPS: u32 = 0x08;
/// Support bit 4: MSI supported.
pub const SUPPORT_MSI: u32 = 0x10;
/// Support bit 5, known in edition 3.3 alone: Optimized Buffer Flush and Fill supported.
pub const SUPPORT_OPTIMIZED_BUFFER_FLUSH_FILL: u32 = 0x20;
/// Support bit 6, known in edition 3.3 alone: ASPM Optionality supported.
pub const SUPPORT_ASPM_OPTIONALITY: u32 = 0x40;
/// Support bit 7, known in edition 3.3 alone: Error Disconnect Recover Supported. [`CONTROL_DOWNSTREAM_PORT_CONTAINMENT`] needs it.
pub const SUPPORT_ERROR_DISCONNECT_RECOVER: u32 = 0x80;
/// Support bit 8, known in edition 3.3 alone: _HPX PCI Express Descriptor Setting Record (Type 3) Supported.
pub const SUPPORT_HPX_TYPE_3: u32 = 0x100;
/// The support bits known in edition 3.0, 0 to 4.
pub const SUPPORT_ALL_3_0: u32 = 0x1F;
/// The support bits known in edition 3.3, 0 to 8.
pub const SUPPORT_ALL_3_3: u32 = 0x1FF;

/// Control bit 0: PCI Express Native Hot Plug control. It needs [`CONTROL_EXPRESS_CAPABILITY`].
pub const CONTROL_EXPRESS_HOT_PLUG: u32 = 0x01;
/// Control bit 1: SHPC Native Hot Plug control. It needs nothing in edition 3.0, and [`CONTROL_EXPRESS_CAPABILITY`] in 3.3.
pub const CONTROL_SHPC_HOT_PLUG: u32 = 0x02;
/// Control bit 2: PCI Express Native Power Management Events control. It needs [`CONTROL_EXPRESS_CAPABILITY`].
pub const CONTROL_PME: u32 = 0x04;
/// Control bit 3: PCI Express Advanced Error Reporting control. It needs [`CONTROL_EXPRESS_CAPABILITY`], and in edition 3.3 also
/// [`CONTROL_DOWNSTREAM_PORT_CONTAINMENT`].
pub const CONTROL_AER: u32 = 0x08;
/// Control bit 4: PCI Express Capability Structure control. It needs nothing.
pub const CONTROL_EXPRESS_CAPABILITY: u32 = 0x10;
/// Control bit 5, known in edition 3.3 alone: Latency Tolerance Reporting control. It needs [`CONTROL_EXPRESS_CAPABILITY`].
pub const CONTROL_LATENCY_TOLERANCE_REPORTING: u32 = 0x20;
/// Control bit 6, known in edition 3.3 alone. The table gives it no title: drivers never take an all-ones read for data. It needs nothing.
pub const CONTROL_ALL_ONES_INVALID: u32 = 0x40;
/// Control bit 7, known in edition 3.3 alone: PCI Express Downstream Port Containment Configuration Control. It needs [`CONTROL_AER`],
/// [`CONTROL_EXPRESS_CAPABILITY`] and [`SUPPORT_ERROR_DISCONNECT_RECOVER`].
pub const CONTROL_DOWNSTREAM_PORT_CONTAINMENT: u32 = 0x80;
/// Control bit 8, known in edition 3.3 alone: PCI Express Completion Timeout Control. It needs [`CONTROL_EXPRESS_CAPABILITY`].
pub const CONTROL_COMPLETION_TIMEOUT: u32 = 0x100;
/// Control bit 9, known in edition 3.3 alone: PCI Express System Firmware Intermediary Configuration Control. It needs nothing.
pub const CONTROL_SYSTEM_FIRMWARE_INTERMEDIARY: u32 = 0x200;
/// The control bits known in edition 3.0, 0 to 4.
pub const CONTROL_ALL_3_0: u32 = 0x1F;
/// The control bits known in edition 3.3, 0 to 9.
pub const CONTROL_ALL_3_3: u32 = 0x3FF;
