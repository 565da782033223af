//! The MCFG table.

use crate::buses::BusRange;
use crate::limits::MAX_ENTRIES;
use crate::list::List;
use crate::place::{BUS_BYTES, bus_start};

/// The letters at the start of the table.
const SIGNATURE: &[u8; 4] = b"MCFG";
/// The revision of the table that is understood.
const REVISION: u8 = 1;
/// Bytes before the first entry: 36 of header and 8 reserved.
const HEADER_BYTES: usize = 44;
/// Bytes of an entry.
const ENTRY_BYTES: usize = 16;

/// The entries of a sound MCFG table.
pub(crate) type Entries = List<Entry, MAX_ENTRIES>;

/// One entry: the address that bus 0 has or would have, the buses and their window.
#[derive(Clone, Copy, Debug)]
pub(crate) struct Entry {
    pub(crate) base: u64,
    first_address: u64,
    last_address: u64,
    pub(crate) buses: BusRange,
}

impl Entry {
    /// Fills the unused end of a list.
    const UNUSED: Entry = Entry {
        base: 0,
        first_address: 0,
        last_address: 0,
        buses: BusRange::UNUSED,
    };

    /// Reads an entry that is sound by itself.
    fn read(bytes: &[u8; ENTRY_BYTES]) -> Option<Entry> {
        let [b0, b1, b2, b3, b4, b5, b6, b7, s0, s1, start, end, ..] = *bytes;
        let base = u64::from_le_bytes([b0, b1, b2, b3, b4, b5, b6, b7]);
        let buses = BusRange::new(u16::from_le_bytes([s0, s1]), start, end)?;
        // The window may end at 2^64, so it is kept by its last address and not by its end.
        let last_address = base.checked_add(bus_start(end.into()) | (BUS_BYTES - 1))?;
        base.is_multiple_of(BUS_BYTES).then_some(Entry {
            base,
            first_address: base + bus_start(start.into()),
            last_address,
            buses,
        })
    }

    /// Whether the two entries have an address or a bus in common.
    fn collides(&self, other: &Entry) -> bool {
        let share_address =
            self.first_address <= other.last_address && other.first_address <= self.last_address;
        share_address || self.buses.shares_bus(other.buses)
    }
}

/// All bytes added, modulo 256.
pub fn byte_sum(bytes: &[u8]) -> u8 {
    bytes.iter().fold(0, |sum, &byte| sum.wrapping_add(byte))
}

/// No entries, to be filled by `read`.
pub(crate) fn no_entries() -> Entries {
    Entries::new(Entry::UNUSED)
}

/// Adds the entries of a table to a list; `None` when the table is unsound.
pub(crate) fn read(mcfg: &[u8], entries: &mut Entries) -> Option<()> {
    let (header, body) = mcfg.split_first_chunk::<HEADER_BYTES>()?;
    let [m, c, f, g, l0, l1, l2, l3, revision, ..] = *header;
    let length = u32::from_le_bytes([l0, l1, l2, l3]);
    let (body, []) = body.as_chunks::<ENTRY_BYTES>() else {
        return None;
    };
    let sound = [m, c, f, g] == *SIGNATURE
        && u32::try_from(mcfg.len()) == Ok(length)
        && revision == REVISION
        && body.len() <= MAX_ENTRIES
        && byte_sum(mcfg) == 0;
    if !sound {
        return None;
    }
    for bytes in body {
        let entry = Entry::read(bytes)?;
        if entries.iter().any(|earlier| earlier.collides(&entry)) {
            return None;
        }
        entries.push(entry)?;
    }
    Some(())
}
