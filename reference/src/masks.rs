//! The masks for a register: source document 002, "PCI Express Setting Record (Type 2)", and document 02, h.

use crate::limits::MAX_WORD;

/// The registers of the PCI Express setting record, each with its pair of masks.
pub(crate) const REGISTERS: usize = 8;

/// The masks for a register.
#[derive(Clone, Copy, Debug, Default, PartialEq, Eq)]
pub struct Masks {
    /// The AND mask.
    pub and: u32,
    /// The OR mask.
    pub or: u32,
}

impl Masks {
    /// The formula of document 01, "Record blocks and register values", for any pair, also one without a meaning.
    #[inline]
    pub fn new_value(self, current: u32) -> u32 {
        (current & self.and) | self.or
    }

    /// Whether each bit is one of document 002's three cases (left as it is, made 0, made 1): none is clear in AND and set in OR.
    #[inline]
    pub(crate) fn has_meaning(self) -> bool {
        self.or & !self.and == 0
    }

    /// Whether the masks are for a 16-bit register.
    #[inline]
    pub(crate) fn within_word(self) -> bool {
        self.and <= MAX_WORD && self.or <= MAX_WORD
    }
}
