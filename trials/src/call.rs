//! The calls with all that is lent to them.

use crate::buffer::{Bytes, Words};
use crate::part::Part;
use crate::row::Rows;
use crate::settings::Settings;

/// Declares each call as a struct of its arguments, and the calls as one type.
macro_rules! calls {
    ($($call:ident { $($argument:ident: $type:ty),* })*) => {
        #[derive(Clone, Debug, PartialEq, Eq)]
        pub enum Call {
            $($call($call)),*
        }

        impl Call {
            /// The arguments in the order of the header, with their names.
            pub fn parts(&mut self) -> Vec<(&'static str, Part<'_>)> {
                match self {
                    $(Call::$call(call) => {
                        vec![$((stringify!($argument), Part::from(&mut call.$argument))),*]
                    })*
                }
            }
        }

        $(#[derive(Clone, Debug, PartialEq, Eq)]
        pub struct $call {
            $(pub $argument: $type),*
        }

        impl From<$call> for Call {
            fn from(call: $call) -> Call {
                Call::$call(call)
            }
        })*
    };
}

calls! {
    Start { mcfg: Bytes, rows: Rows }
    Osc { session: u8, bridge: u8, revision: u32, count: u32, uuid: Bytes, capabilities: Bytes, answer: Bytes }
    Reset { session: u8, bridge: u8 }
    Report { session: u8, bridge: u8 }
    Address { session: u8, bridge: u8, bus: u32, device: u32, function: u32, offset: u32, width: u32 }
    Locate { session: u8, address: u64 }
    FindRecord { slot: Bytes, bridge_block: Bytes, record_type: u32 }
    FindImage { rom: Bytes, vendor: u32, device: u32, code_type: u32 }
    WriteRecords { settings: Settings, buffer: Bytes }
    RegisterValues { session: u8, bridge: u8, slot: Bytes, bridge_block: Bytes, current: Words }
}

/// The names of the calls, in the order of `Call::kind`.
pub const KINDS: [&str; 10] = [
    "start",
    "osc",
    "reset",
    "report",
    "address",
    "locate",
    "find_record",
    "find_image",
    "write_records",
    "register_values",
];

/// The numbers that documents 01 and 02 list for each call, in the order of `KINDS`.
pub const LISTED: [&[usize]; 10] = [
    &[0, 6, 7],
    &[0, 1, 2, 3],
    &[0, 1, 2],
    &[0, 1, 2],
    &[0, 1, 2, 5, 4],
    &[0, 4],
    &[0, 8, 9],
    &[0, 12, 13],
    &[0, 14, 15],
    &[0, 1, 2, 11, 10, 8, 9],
];

impl Call {
    pub fn kind(&self) -> usize {
        match self {
            Call::Start(_) => 0,
            Call::Osc(_) => 1,
            Call::Reset(_) => 2,
            Call::Report(_) => 3,
            Call::Address(_) => 4,
            Call::Locate(_) => 5,
            Call::FindRecord(_) => 6,
            Call::FindImage(_) => 7,
            Call::WriteRecords(_) => 8,
            Call::RegisterValues(_) => 9,
        }
    }

    pub fn name(&self) -> &'static str {
        KINDS[self.kind()]
    }

    pub fn set_guard(&mut self, guard: usize) {
        for (_, part) in self.parts() {
            match part {
                Part::Bytes(bytes) => bytes.set_guard(guard),
                Part::Words(words) => words.set_guard(guard),
                Part::Rows(rows) => rows.set_guard(guard),
                Part::Byte(_) | Part::Word(_) | Part::Long(_) | Part::Settings(_) => {}
            }
        }
    }

    /// Whether `self`, as a call left it, is `before` with nothing changed but bytes of the buffer that the call may write in.
    pub fn keeps_what_is_read(&self, before: &Call) -> bool {
        let mut restored = self.clone();
        match (&mut restored, before) {
            (Call::Osc(left), Call::Osc(before)) => restore(&mut left.answer, &before.answer),
            (Call::WriteRecords(left), Call::WriteRecords(before)) => {
                restore(&mut left.buffer, &before.buffer);
            }
            _ => {}
        }
        restored == *before
    }
}

fn restore(left: &mut Bytes, before: &Bytes) {
    left.lent_mut().copy_from_slice(before.lent());
}
