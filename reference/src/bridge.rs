//! One bridge of the table, and the numbers of bridges and sessions.

use crate::buses::BusRange;
use crate::edition::Edition;

/// The number of a session.
#[derive(Clone, Copy, Debug, PartialEq, Eq)]
pub struct SessionNumber(pub u8);

/// The number of a bridge, from 0 in list order.
#[derive(Clone, Copy, Debug, PartialEq, Eq)]
pub struct BridgeNumber(pub u8);

/// What the table keeps of a bridge; no bit that its edition does not know is ever permitted, held or supported, so none above 9.
#[derive(Clone, Copy, Debug)]
pub(crate) struct Bridge {
    pub(crate) base: u64,
    pub(crate) buses: BusRange,
    pub(crate) owner: SessionNumber,
    pub(crate) edition: Edition,
    pub(crate) permitted: u16,
    pub(crate) held: u16,
    pub(crate) supported: u16,
}

impl Bridge {
    /// Fills the unused end of a list.
    pub(crate) const UNUSED: Bridge = Bridge {
        base: 0,
        buses: BusRange::UNUSED,
        owner: SessionNumber(0),
        edition: Edition::Old,
        permitted: 0,
        held: 0,
        supported: 0,
    };
}
