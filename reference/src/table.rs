//! The table of host bridges and the calls on it.

use core::ops::Deref;

use crate::bridge::{Bridge, BridgeNumber, SessionNumber};
use crate::limits::MAX_ROWS;
use crate::list::List;
use crate::mcfg;
use crate::osc::OscCall;
use crate::place::Place;
use crate::refusal::Refusal;
use crate::rows::BridgeRow;

/// What a bridge holds.
#[derive(Clone, Copy, Debug, PartialEq, Eq)]
pub struct Holding {
    /// The control bits that its owner was granted.
    pub held: u32,
    /// The support bits that its owner named.
    pub supported: u32,
}

/// The bridges, in list order.
#[derive(Debug)]
pub struct Table {
    bridges: List<Bridge, MAX_ROWS>,
}

/// The bridge that was looked up, or refusal 1 or 2.
#[inline]
fn owned<B: Deref<Target = Bridge>>(
    found: Option<B>,
    session: SessionNumber,
) -> Result<B, Refusal> {
    let bridge = found.ok_or(Refusal::NoSuchBridge)?;
    if bridge.owner != session {
        return Err(Refusal::NotOwner);
    }
    Ok(bridge)
}

impl Table {
    /// The table with no bridges, which a refused start gives.
    pub fn empty() -> Table {
        Table {
            bridges: List::new(Bridge::UNUSED),
        }
    }

    /// Starts a table, or gives refusal 6 or 7.
    #[inline(never)]
    pub fn start(mcfg: &[u8], rows: &[BridgeRow]) -> Result<Table, Refusal> {
        let mut entries = mcfg::no_entries();
        mcfg::read(mcfg, &mut entries).ok_or(Refusal::Mcfg)?;
        let mut table = Table::empty();
        for row in rows {
            let bridge = row.bridge(&entries);
            let added = bridge.and_then(|bridge| table.add(bridge));
            added.ok_or(Refusal::Rows)?;
        }
        Ok(table)
    }

    /// Adds a bridge, unless it shares a bus with an earlier one or the table is full.
    fn add(&mut self, bridge: Bridge) -> Option<()> {
        let buses = bridge.buses;
        if self
            .bridges
            .iter()
            .any(|earlier| earlier.buses.shares_bus(buses))
        {
            return None;
        }
        self.bridges.push(bridge)
    }

    /// How many bridges the table has.
    pub fn len(&self) -> usize {
        self.bridges.len()
    }

    /// Whether the table has no bridges.
    pub fn is_empty(&self) -> bool {
        self.bridges.is_empty()
    }

    /// The bridge of that number, when the session owns it.
    fn bridge(&self, session: SessionNumber, bridge: BridgeNumber) -> Result<&Bridge, Refusal> {
        owned(self.bridges.get(usize::from(bridge.0)), session)
    }

    /// The same, to be changed.
    fn bridge_mut(
        &mut self,
        session: SessionNumber,
        bridge: BridgeNumber,
    ) -> Result<&mut Bridge, Refusal> {
        owned(self.bridges.get_mut(usize::from(bridge.0)), session)
    }

    /// Answers an _OSC call in `answer`, or gives refusal 1, 2 or 3.
    #[inline(never)]
    #[expect(clippy::too_many_arguments, reason = "the arguments of _OSC")]
    pub fn osc(
        &mut self,
        session: SessionNumber,
        bridge: BridgeNumber,
        revision: u32,
        count: u32,
        uuid: &[u8],
        capabilities: &[u8],
        answer: &mut [u8],
    ) -> Result<(), Refusal> {
        let bridge = self.bridge_mut(session, bridge)?;
        OscCall::framed(revision, count, uuid, capabilities, answer)?.answer(bridge);
        Ok(())
    }

    /// Sets the held and supported bits to 0, or gives refusal 1 or 2.
    #[inline(never)]
    pub fn reset(&mut self, session: SessionNumber, bridge: BridgeNumber) -> Result<(), Refusal> {
        let bridge = self.bridge_mut(session, bridge)?;
        bridge.held = 0;
        bridge.supported = 0;
        Ok(())
    }

    /// What the bridge holds, or refusal 1 or 2.
    #[inline(never)]
    pub fn report(&self, session: SessionNumber, bridge: BridgeNumber) -> Result<Holding, Refusal> {
        let bridge = self.bridge(session, bridge)?;
        Ok(Holding {
            held: bridge.held.into(),
            supported: bridge.supported.into(),
        })
    }

    /// The configuration address of a place, or refusal 1, 2, 5 or 4.
    #[inline(never)]
    #[expect(clippy::too_many_arguments, reason = "the parts of a place")]
    pub fn address(
        &self,
        session: SessionNumber,
        bridge: BridgeNumber,
        bus: u32,
        device: u32,
        function: u32,
        offset: u32,
        width: u32,
    ) -> Result<u64, Refusal> {
        self.bridge(session, bridge)?
            .address(bus, device, function, offset, width)
    }

    /// The place of an address in a bridge of the session, or refusal 4.
    #[inline(never)]
    pub fn locate(&self, session: SessionNumber, address: u64) -> Result<Place, Refusal> {
        (0..)
            .map(BridgeNumber)
            .zip(self.bridges.iter())
            .filter(|(_, bridge)| bridge.owner == session)
            .find_map(|(number, bridge)| bridge.locate(number, address))
            .ok_or(Refusal::NoSuchBus)
    }

    /// The new register values of a hot-plugged device, or refusal 1, 2, 11, 10, 8 or 9.
    #[inline(never)]
    pub fn register_values(
        &self,
        session: SessionNumber,
        bridge: BridgeNumber,
        slot: &[u8],
        bridge_block: &[u8],
        current: &[u32],
    ) -> Result<[u32; 8], Refusal> {
        self.bridge(session, bridge)?
            .register_values(slot, bridge_block, current)
    }
}
