//! Place and address.

use crate::bridge::{Bridge, BridgeNumber};
use crate::limits::{MAX_DEVICE, MAX_FUNCTION, MAX_OFFSET};
use crate::refusal::Refusal;

/// Where the bus number stands in an address.
const BUS_SHIFT: u32 = 20;
/// Where the device number stands in an address.
const DEVICE_SHIFT: u32 = 15;
/// Where the function number stands in an address.
const FUNCTION_SHIFT: u32 = 12;
/// Bytes of configuration space of a bus.
pub(crate) const BUS_BYTES: u64 = 1 << BUS_SHIFT;

/// A configuration address taken apart.
#[derive(Clone, Copy, Debug, PartialEq, Eq)]
pub struct Place {
    /// The bridge whose window holds the address.
    pub bridge: BridgeNumber,
    /// The bus.
    pub bus: u8,
    /// The device on the bus.
    pub device: u8,
    /// The function of the device.
    pub function: u8,
    /// The offset in the function's configuration space.
    pub offset: u16,
}

/// Bytes from the base to the start of a bus.
pub(crate) fn bus_start(bus: u32) -> u64 {
    u64::from(bus) << BUS_SHIFT
}

impl Bridge {
    /// The configuration address of a place, or refusal 5 or 4.
    pub(crate) fn address(
        &self,
        bus: u32,
        device: u32,
        function: u32,
        offset: u32,
        width: u32,
    ) -> Result<u64, Refusal> {
        let sound = device <= MAX_DEVICE
            && function <= MAX_FUNCTION
            && offset <= MAX_OFFSET
            && matches!(width, 1 | 2 | 4)
            && offset & (width - 1) == 0;
        if !sound {
            return Err(Refusal::BadPlace);
        }
        if !self.buses.contains(bus) {
            return Err(Refusal::NoSuchBus);
        }
        let within_bus = (u64::from(device) << DEVICE_SHIFT)
            | (u64::from(function) << FUNCTION_SHIFT)
            | u64::from(offset);
        Ok(self.base + (bus_start(bus) | within_bus))
    }

    /// The place of an address, when it is in the bridge's window; `number` is the bridge's own.
    pub(crate) fn locate(&self, number: BridgeNumber, address: u64) -> Option<Place> {
        let from_base = address.checked_sub(self.base)?;
        let bus = u8::try_from(from_base >> BUS_SHIFT).ok()?;
        let part = |shift, most| (from_base >> shift) as u32 & most;
        self.buses.contains(bus.into()).then_some(Place {
            bridge: number,
            bus,
            device: part(DEVICE_SHIFT, MAX_DEVICE) as u8,
            function: part(FUNCTION_SHIFT, MAX_FUNCTION) as u8,
            offset: part(0, MAX_OFFSET) as u16,
        })
    }
}
