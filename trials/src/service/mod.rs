//! The programs that are compared: each is one service.

mod boundary;
mod program;
mod reference;
mod safe_crate;

pub use self::reference::{Reference, records as as_records};
pub use boundary::{Boundary, as_lent};
pub use safe_crate::SafeCrate;

use crate::buffer::Bytes;
use crate::call::Call;
use crate::given::Given;
use crate::settings::Settings;

pub trait Service {
    /// What a reader knows the program as.
    fn name(&self) -> &'static str;

    /// Whether the types of its interface have room for the call's numbers. A call for which they have none is not made.
    fn takes(&self, _: &Call) -> bool {
        true
    }

    /// Makes one call on the table that the last start left, or on a table with no bridges before any start. The call's buffers are
    /// what is lent: the service leaves them as the call left them.
    fn call(&mut self, call: &mut Call) -> Given;

    /// Reads the revision 1 records of a block, each with the flag 1; or gives a refusal's number.
    fn read(&mut self, block: &Bytes) -> Result<Settings, u8>;
}

/// Two programs under comparison, made anew for each list.
pub struct Pair {
    pub left: Box<dyn Service>,
    pub right: Box<dyn Service>,
}

impl Pair {
    /// Whether both take the call.
    pub fn takes(&self, call: &Call) -> bool {
        self.left.takes(call) && self.right.takes(call)
    }
}

/// The proved library at the C boundary, and the reference implementation.
pub fn boundary_and_reference() -> Pair {
    Pair {
        left: Box::new(Boundary::new()),
        right: Box::new(Reference::new()),
    }
}

/// The safe crate over the proved library, and the reference implementation.
pub fn safe_crate_and_reference() -> Pair {
    Pair {
        left: Box::new(SafeCrate::new()),
        right: Box::new(Reference::new()),
    }
}
