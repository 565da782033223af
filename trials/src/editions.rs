//! The two editions of the control field, and what decides about a right _OSC call (document 02, d).

use crate::call::Osc;
use crate::given::Handed;
use crate::requests::{QUERY, dword};
use crate::row::Row;

pub const OLD_EDITION: u8 = 0;
pub const EDITION_3_3: u8 = 1;

/// Support bit 7, which control bit 7 needs.
pub const SUPPORT_7: u32 = 1 << 7;

/// The control bits that an edition knows.
pub const fn known_control(edition: u8) -> u32 {
    match edition {
        EDITION_3_3 => 0x3FF,
        _ => 0x1F,
    }
}

/// The support bits that an edition knows.
pub const fn known_support(edition: u8) -> u32 {
    match edition {
        EDITION_3_3 => 0x1FF,
        _ => 0x1F,
    }
}

/// A right _OSC call, and what its bridge has before it.
#[derive(Clone, Copy, Debug)]
pub struct Asked {
    pub edition: u8,
    pub permitted: u32,
    pub held: u32,
    pub supported: u32,
    pub query: bool,
    pub support: u32,
    pub requested: u32,
}

/// The bits that it is granted, and what its bridge holds after it.
#[derive(Clone, Copy, Debug, PartialEq, Eq)]
pub struct Outcome {
    pub granted: u32,
    pub held: u32,
    pub supported: u32,
}

impl Asked {
    /// Of a call with three DWORDs on the bridge of this row, by the report before it.
    pub fn new(call: &Osc, row: &Row, report: Handed) -> Asked {
        let (held, supported) = match report {
            Handed::Holding { held, supported } => (held, supported),
            _ => (0, 0),
        };
        let [status, support, requested] =
            [0, 1, 2].map(|index| dword(call.capabilities.lent(), index));
        Asked {
            edition: row.edition,
            permitted: row.permitted,
            held,
            supported,
            query: status & QUERY != 0,
            support,
            requested,
        }
    }

    /// The granted bits, as the reference has them.
    pub fn granted(&self) -> u32 {
        reference::granted(
            self.edition,
            self.permitted,
            self.held,
            self.supported,
            self.support,
            self.requested,
        )
    }

    /// What the documents ask for.
    pub fn outcome(&self) -> Outcome {
        self.outcome_with(self.granted(), known_support(self.edition))
    }

    /// The outcome where these bits are granted and these support bits known: a query changes nothing.
    pub fn outcome_with(&self, granted: u32, known: u32) -> Outcome {
        let (held, supported) = match self.query {
            true => (self.held, self.supported),
            false => (self.held | granted, self.supported | (self.support & known)),
        };
        Outcome {
            granted,
            held,
            supported,
        }
    }
}
