//! The rows of the starting list.

use crate::bridge::{Bridge, SessionNumber};
use crate::buses::BusRange;
use crate::edition::{Edition, SHPC_HOT_PLUG};
use crate::limits::MAX_OWNER;
use crate::mcfg::Entry;

/// The kind of a host bridge that starts a PCI Express hierarchy.
const EXPRESS: u8 = 0;
/// The kind of one that starts a PCI or PCI-X hierarchy.
const CONVENTIONAL: u8 = 1;

/// One row of the starting list.
#[derive(Clone, Copy, Debug, PartialEq, Eq)]
pub struct BridgeRow {
    /// The session that owns the bridge, 0 to 63.
    pub owner: SessionNumber,
    /// The segment of its buses.
    pub segment: u16,
    /// Its first bus.
    pub first_bus: u8,
    /// Its last bus.
    pub last_bus: u8,
    /// 0 Express, 1 conventional.
    pub kind: u8,
    /// The control bits that its owner may be granted.
    pub permitted: u32,
    /// The edition of the control field: 0 the old one, 1 edition 3.3.
    pub edition: u8,
}

impl BridgeRow {
    /// The bridge of a row that is sound by itself, with the base of its MCFG entry.
    pub(crate) fn bridge(&self, entries: &[Entry]) -> Option<Bridge> {
        let edition = Edition::numbered(self.edition)?;
        let permissible = match self.kind {
            EXPRESS => edition.known_control(),
            CONVENTIONAL => SHPC_HOT_PLUG,
            _ => return None,
        };
        if self.owner.0 > MAX_OWNER || self.permitted & !permissible != 0 {
            return None;
        }
        let buses = BusRange::new(self.segment, self.first_bus, self.last_bus)?;
        let entry = entries.iter().find(|entry| entry.buses.encloses(buses))?;
        Some(Bridge {
            base: entry.base,
            buses,
            owner: self.owner,
            edition,
            permitted: self.permitted as u16,
            held: 0,
            supported: 0,
        })
    }
}
