//! Bus ranges, shared by MCFG entries and bridge rows.

/// The buses `first` to `last`, both included, of one segment.
#[derive(Clone, Copy, Debug)]
pub(crate) struct BusRange {
    segment: u16,
    pub(crate) first: u8,
    pub(crate) last: u8,
}

impl BusRange {
    /// Fills the unused end of a list.
    pub(crate) const UNUSED: BusRange = BusRange {
        segment: 0,
        first: 0,
        last: 0,
    };

    /// The range, unless `first` is above `last`.
    pub(crate) fn new(segment: u16, first: u8, last: u8) -> Option<BusRange> {
        (first <= last).then_some(BusRange {
            segment,
            first,
            last,
        })
    }

    /// Whether the bus number is in the range.
    pub(crate) fn contains(self, bus: u32) -> bool {
        u32::from(self.first) <= bus && bus <= u32::from(self.last)
    }

    /// Whether all of `inner` is in the range.
    pub(crate) fn encloses(self, inner: BusRange) -> bool {
        self.segment == inner.segment && self.first <= inner.first && inner.last <= self.last
    }

    /// Whether the two ranges have a bus of one segment in common.
    pub(crate) fn shares_bus(self, other: BusRange) -> bool {
        self.segment == other.segment && self.first <= other.last && other.first <= self.last
    }
}
