//! One row of the starting list.

use crate::buffer::{Buffer, Item};
use crate::editions::{EDITION_3_3, OLD_EDITION, known_control};
use crate::mcfg::Entry;

pub const EXPRESS: u8 = 0;
pub const CONVENTIONAL: u8 = 1;

pub type Rows = Buffer<Row>;

/// A row as C lays it out, with the byte at its end that no call reads.
#[repr(C)]
#[derive(Clone, Copy, Debug, PartialEq, Eq)]
pub struct Row {
    pub permitted: u32,
    pub segment: u16,
    pub owner: u8,
    pub first: u8,
    pub last: u8,
    pub kind: u8,
    pub edition: u8,
    pub unused: u8,
}

impl Item for Row {
    const PATTERN: Row = Row {
        permitted: 0xA5A5_A5A5,
        segment: 0xA5A5,
        owner: 0xA5,
        first: 0xA5,
        last: 0xA5,
        kind: 0xA5,
        edition: 0xA5,
        unused: 0xA5,
    };
}

/// The numbers of a row.
pub const NUMBERS: usize = 8;
/// What they are called, in the order of `Row::numbers`.
pub const NAMES: [&str; NUMBERS] = [
    "owner",
    "segment",
    "first",
    "last",
    "kind",
    "permitted",
    "edition",
    "unused",
];

impl Row {
    /// An Express row of the old edition that permits every bit.
    pub const fn express(owner: u8, segment: u16, first: u8, last: u8) -> Row {
        Row {
            permitted: known_control(OLD_EDITION),
            segment,
            owner,
            first,
            last,
            kind: EXPRESS,
            edition: OLD_EDITION,
            unused: 0,
        }
    }

    /// The same of edition 3.3.
    pub const fn express_3_3(owner: u8, segment: u16, first: u8, last: u8) -> Row {
        Row {
            permitted: known_control(EDITION_3_3),
            edition: EDITION_3_3,
            ..Row::express(owner, segment, first, last)
        }
    }

    /// The entry that the row's buses lie inside.
    pub fn entry<'a>(&self, entries: &'a [Entry]) -> Option<&'a Entry> {
        let mut of_segment = entries.iter().filter(|entry| entry.segment == self.segment);
        of_segment.find(|entry| entry.start <= self.first && self.last <= entry.end)
    }

    pub fn numbers(&self) -> [u64; NUMBERS] {
        [
            self.owner.into(),
            self.segment.into(),
            self.first.into(),
            self.last.into(),
            self.kind.into(),
            self.permitted.into(),
            self.edition.into(),
            self.unused.into(),
        ]
    }

    /// The row with these numbers, which lose the bits for which it has no room.
    pub fn from_numbers(numbers: &[u64; NUMBERS]) -> Row {
        let [
            owner,
            segment,
            first,
            last,
            kind,
            permitted,
            edition,
            unused,
        ] = *numbers;
        Row {
            permitted: permitted as u32,
            segment: segment as u16,
            owner: owner as u8,
            first: first as u8,
            last: last as u8,
            kind: kind as u8,
            edition: edition as u8,
            unused: unused as u8,
        }
    }
}
