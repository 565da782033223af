//! What the calls take and hand back.
use core::mem::{align_of, offset_of, size_of};

use crate::sys;

/// A session number. A bridge number does not pass for it:
///
/// ```compile_fail,E0308
#[doc = include_str!("example_start.txt")]
/// table.report(bridge, session)?;
/// # Ok::<(), Refusal>(())
/// ```
#[repr(transparent)]
#[derive(Clone, Copy, Debug, PartialEq, Eq)]
pub struct SessionNumber(pub u8);

/// A bridge number: bridges are numbered from 0 in the order of the starting list.
#[derive(Clone, Copy, Debug, PartialEq, Eq)]
pub struct BridgeNumber(pub u8);

impl SessionNumber {
    pub(crate) fn lent(self) -> sys::SessionNumber {
        sys::SessionNumber { number: self.0 }
    }
}

impl BridgeNumber {
    pub(crate) fn lent(self) -> sys::BridgeNumber {
        sys::BridgeNumber { number: self.0 }
    }
}

/// The kind of a host bridge.
#[repr(u8)]
#[derive(Clone, Copy, Debug, PartialEq, Eq)]
pub enum BridgeKind {
    /// PCI Express.
    Express = 0,
    /// Conventional PCI, which permits no control bit but [`CONTROL_SHPC_HOT_PLUG`](crate::osc::CONTROL_SHPC_HOT_PLUG). Edition 3.3 never
    /// grants that there, since it needs [`CONTROL_EXPRESS_CAPABILITY`](crate::osc::CONTROL_EXPRESS_CAPABILITY).
    Conventional = 1,
}

/// The edition of the PCI Firmware Specification by which a host bridge answers _OSC: it says which bits of [`osc`](crate::osc) are known,
/// and what a control bit needs. By default it is 3.0.
#[repr(u8)]
#[derive(Clone, Copy, Debug, Default, PartialEq, Eq)]
pub enum Edition {
    /// Edition 3.0: support bits 0 to 4 and control bits 0 to 4.
    #[default]
    V3_0 = 0,
    /// Edition 3.3: support bits 0 to 8 and control bits 0 to 9.
    V3_3 = 1,
}

/// A row of the starting list. It is laid out as the C header's, so that the list is lent as it stands.
#[repr(C)]
#[derive(Clone, Copy, Debug, PartialEq, Eq)]
pub struct BridgeRow {
    /// The control bits that _OSC may grant, of those in [`osc`](crate::osc) that are known in the row's edition.
    pub permitted: u32,
    /// The PCI segment.
    pub segment: u16,
    /// The session that owns the bridge, 0 to 63.
    pub owner: SessionNumber,
    /// The first bus.
    pub first_bus: u8,
    /// The last bus.
    pub last_bus: u8,
    /// The kind of bridge.
    pub kind: BridgeKind,
    /// The edition by which it answers _OSC.
    pub edition: Edition,
}

// `Table::start` lends these rows as those of sys.
const _: () = {
    assert!(size_of::<BridgeRow>() == size_of::<sys::BridgeRow>());
    assert!(align_of::<BridgeRow>() == align_of::<sys::BridgeRow>());
    assert!(offset_of!(BridgeRow, permitted) == offset_of!(sys::BridgeRow, permitted));
    assert!(offset_of!(BridgeRow, segment) == offset_of!(sys::BridgeRow, segment));
    assert!(offset_of!(BridgeRow, owner) == offset_of!(sys::BridgeRow, owner));
    assert!(offset_of!(BridgeRow, first_bus) == offset_of!(sys::BridgeRow, first_bus));
    assert!(offset_of!(BridgeRow, last_bus) == offset_of!(sys::BridgeRow, last_bus));
    assert!(offset_of!(BridgeRow, kind) == offset_of!(sys::BridgeRow, kind));
    assert!(offset_of!(BridgeRow, edition) == offset_of!(sys::BridgeRow, edition));
    assert!(size_of::<SessionNumber>() == size_of::<sys::SessionNumber>());
    assert!(size_of::<BridgeKind>() == size_of::<u8>());
    assert!(size_of::<Edition>() == size_of::<u8>());
};

/// What a bridge holds.
#[derive(Clone, Copy, Debug, PartialEq, Eq)]
pub struct Holding {
    /// The held control bits: those that _OSC granted since start or reset.
    pub held: u32,
    /// The supported bits: those that taking calls told since start or reset.
    pub supported: u32,
}

/// A place on a bridge.
#[derive(Clone, Copy, Debug, PartialEq, Eq)]
pub struct Place {
    /// The bridge.
    pub bridge: BridgeNumber,
    /// The bus.
    pub bus: u8,
    /// The device, 0 to 31.
    pub device: u8,
    /// The function, 0 to 7.
    pub function: u8,
    /// The offset in the function's configuration space, 0 to 4095.
    pub offset: u16,
}
