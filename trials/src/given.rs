//! What a call gives.

use crate::call::Call;

/// Its number and what it hands back beside it.
#[derive(Clone, Copy, Debug, PartialEq, Eq)]
pub struct Given {
    pub number: u8,
    pub handed: Handed,
}

#[derive(Clone, Copy, Debug, PartialEq, Eq)]
pub enum Handed {
    Nothing,
    /// A table with so many bridges.
    Table {
        bridges: usize,
    },
    Holding {
        held: u32,
        supported: u32,
    },
    Address(u64),
    Place {
        bridge: u8,
        bus: u8,
        device: u8,
        function: u8,
        offset: u16,
    },
    Record {
        in_slot: bool,
        start: usize,
        length: usize,
    },
    Image {
        start: usize,
        length: usize,
    },
    /// So many bytes of records.
    Written {
        length: usize,
    },
    Values([u32; 8]),
}

impl Handed {
    /// What a refused call hands back.
    pub fn zeros(call: &Call) -> Handed {
        match call {
            Call::Start(_) => Handed::Table { bridges: 0 },
            Call::Osc(_) | Call::Reset(_) => Handed::Nothing,
            Call::Report(_) => Handed::Holding {
                held: 0,
                supported: 0,
            },
            Call::Address(_) => Handed::Address(0),
            Call::Locate(_) => Handed::Place {
                bridge: 0,
                bus: 0,
                device: 0,
                function: 0,
                offset: 0,
            },
            Call::FindRecord(_) => Handed::Record {
                in_slot: false,
                start: 0,
                length: 0,
            },
            Call::FindImage(_) => Handed::Image {
                start: 0,
                length: 0,
            },
            Call::WriteRecords(_) => Handed::Written { length: 0 },
            Call::RegisterValues(_) => Handed::Values([0; 8]),
        }
    }
}
