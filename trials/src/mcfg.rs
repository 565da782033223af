//! MCFG tables: sound ones, and ones that break a rule or stand at its edge.

use crate::random::Random;

pub const BUS_BYTES: u64 = 1 << 20;
/// The buses that 2^64 bytes have room for.
const BUSES_TO_END: u64 = 1 << 44;
pub const HEADER: usize = 44;
pub const ENTRY: usize = 16;
/// The byte that makes all bytes sum to a multiple of 256.
pub const CHECKSUM: usize = 9;
pub const MOST_ENTRIES: usize = 64;

#[derive(Clone, Copy, Debug, PartialEq, Eq)]
pub struct Entry {
    pub base: u64,
    pub segment: u16,
    pub start: u8,
    pub end: u8,
}

impl Entry {
    /// The address after the window's last byte; 0 stands for 2^64.
    fn window_end(&self) -> u64 {
        self.base
            .wrapping_add((u64::from(self.end) + 1) * BUS_BYTES)
    }
}

/// A table of these entries with right length and checksum; bytes that no rule reads are random.
pub fn table(random: &mut Random, entries: &[Entry]) -> Vec<u8> {
    let mut bytes = random.bytes(HEADER);
    bytes[..4].copy_from_slice(b"MCFG");
    bytes[8] = 1;
    for entry in entries {
        bytes.extend_from_slice(&entry.base.to_le_bytes());
        bytes.extend_from_slice(&entry.segment.to_le_bytes());
        bytes.extend_from_slice(&[entry.start, entry.end]);
        bytes.extend_from_slice(&random.bytes(4));
    }
    mend(&mut bytes);
    bytes
}

/// The whole entries of a table.
pub fn read(table: &[u8]) -> Vec<Entry> {
    let (entries, _) = table.get(HEADER..).unwrap_or_default().as_chunks::<ENTRY>();
    let entry = |[b0, b1, b2, b3, b4, b5, b6, b7, s0, s1, start, end, ..]: &[u8; ENTRY]| Entry {
        base: u64::from_le_bytes([*b0, *b1, *b2, *b3, *b4, *b5, *b6, *b7]),
        segment: u16::from_le_bytes([*s0, *s1]),
        start: *start,
        end: *end,
    };
    entries.iter().map(entry).collect()
}

/// Sets the length field and the checksum, where the bytes reach so far.
pub fn mend(bytes: &mut [u8]) {
    let length = bytes.len() as u32;
    if let Some(field) = bytes.get_mut(4..8) {
        field.copy_from_slice(&length.to_le_bytes());
    }
    mend_checksum(bytes);
}

pub fn mend_checksum(bytes: &mut [u8]) {
    let sum = reference::byte_sum(bytes);
    if let Some(checksum) = bytes.get_mut(CHECKSUM) {
        *checksum = checksum.wrapping_sub(sum);
    }
}

/// Entries whose table is sound if they are at most 64. Many touch at an edge, many end at 2^64.
pub fn sound_entries(random: &mut Random, count: usize) -> Vec<Entry> {
    let mut entries = bus_ranges(random, count);
    set_windows(random, &mut entries);
    random.shuffle(&mut entries);
    entries
}

/// Entries of a few segments that share no bus, with base 0.
fn bus_ranges(random: &mut Random, count: usize) -> Vec<Entry> {
    let mut segments = [(0u16, 0usize), (1, 0), (0xFFFF, 0)];
    let mut fresh = 2;
    let mut entries = Vec::with_capacity(count);
    while entries.len() < count {
        let (segment, next) = &mut segments[random.below(3)];
        let start = *next + random.pick(&[0, 0, 0, 1, 7]);
        if start > 255 {
            (*segment, *next) = (fresh, 0);
            fresh += 0x101;
            continue;
        }
        let any = random.below(256);
        let length = random.pick(&[0, 1, 3, 15, 127, 255, any]);
        let end = (start + length).min(255);
        entries.push(Entry {
            base: 0,
            segment: *segment,
            start: start as u8,
            end: end as u8,
        });
        *next = end + 1;
    }
    entries
}

/// Sets bases so that the windows stand one after another and share no byte.
fn set_windows(random: &mut Random, entries: &mut [Entry]) {
    let high = random.long() >> 24;
    let mut next = random.pick(&[0, 0xE00, high]);
    for entry in entries.iter_mut() {
        let start = u64::from(entry.start);
        let first = (next + random.pick(&[0, 0, 1, 300])).max(start);
        entry.base = (first - start) * BUS_BYTES;
        next = first - start + u64::from(entry.end) + 1;
    }
    if random.one_in(3) && next < BUSES_TO_END {
        for entry in entries.iter_mut() {
            entry.base += (BUSES_TO_END - next) * BUS_BYTES;
        }
    }
}

/// A table near these sound entries that breaks a rule, as a rule.
pub fn spoiled_table(random: &mut Random, entries: &[Entry]) -> Vec<u8> {
    if random.one_in(2) && !entries.is_empty() {
        let spoiled = spoiled_entries(random, entries);
        return table(random, &spoiled);
    }
    let sound = table(random, entries);
    spoiled_bytes(random, sound)
}

fn spoiled_entries(random: &mut Random, entries: &[Entry]) -> Vec<Entry> {
    let mut spoiled = entries.to_vec();
    let index = random.below(spoiled.len());
    let chosen = spoiled[index];
    match random.below(8) {
        0..5 => spoil_entry(random, &mut spoiled[index]),
        5 => {
            let other = sharing_a_bus(random, chosen);
            put(random, &mut spoiled, other);
        }
        6 => {
            let other = sharing_the_last_window_bus(random, chosen);
            put(random, &mut spoiled, other);
        }
        _ => spoiled = sound_entries(random, MOST_ENTRIES + 1),
    }
    spoiled
}

/// Start above end, a base that is not aligned, a window one bus past 2^64 or one bus lower.
fn spoil_entry(random: &mut Random, entry: &mut Entry) {
    let unaligned = random.pick(&[1, 0x1000, 0x8_0000, BUS_BYTES - 1]);
    match random.below(6) {
        0 if entry.start > 0 => entry.end = entry.start - 1,
        0 | 1 => (entry.start, entry.end) = (entry.end.max(1), entry.start.min(254)),
        2 => entry.base = entry.base.wrapping_add(unaligned),
        3 => entry.base = (BUSES_TO_END - u64::from(entry.end)).wrapping_mul(BUS_BYTES),
        4 => entry.base = !(BUS_BYTES - 1),
        _ => entry.base = entry.base.wrapping_sub(BUS_BYTES),
    }
}

/// An entry of the same segment that shares a bus and no byte of its window.
fn sharing_a_bus(random: &mut Random, entry: Entry) -> Entry {
    let shared = random.pick(&[entry.start, entry.end]);
    let base = entry.base ^ (1 << random.between(30, 63));
    Entry {
        base,
        start: shared,
        end: shared,
        ..entry
    }
}

/// An entry of another segment whose window starts at the last bus of this one's.
fn sharing_the_last_window_bus(random: &mut Random, entry: Entry) -> Entry {
    let base = entry.window_end().wrapping_sub(BUS_BYTES);
    Entry {
        base,
        segment: entry.segment ^ 0x40,
        start: 0,
        end: random.pick(&[0, 3]),
    }
}

/// Puts the entry in; where 64 stand already, another is taken out.
fn put(random: &mut Random, entries: &mut Vec<Entry>, entry: Entry) {
    let index = random.below(entries.len() + 1);
    entries.insert(index, entry);
    if entries.len() > MOST_ENTRIES {
        entries.remove(if index == 0 { MOST_ENTRIES } else { 0 });
    }
}

fn spoiled_bytes(random: &mut Random, mut bytes: Vec<u8>) -> Vec<u8> {
    let length = bytes.len();
    let anywhere = random.below(length);
    match random.below(10) {
        0 => bytes[random.below(4)] ^= random.pick(&[0x20, 1, 0xFF]),
        1 => bytes.truncate(random.pick(&[0, 1, 4, 9, 10, 36, 43])),
        2 => {
            let field = (length as u32).wrapping_add_signed(random.pick(&[1, -1, 16, -16, 0x100]));
            bytes[4..8].copy_from_slice(&field.to_le_bytes());
            mend_checksum(&mut bytes);
            return bytes;
        }
        3 => bytes[8] = random.pick(&[0, 2, 3, 255]),
        4 => {
            bytes[CHECKSUM] = bytes[CHECKSUM].wrapping_add(random.pick(&[1, 255, 0x80]));
            return bytes;
        }
        5 => {
            bytes[anywhere] ^= 1 << random.below(8);
            return bytes;
        }
        6 => {
            let more = random.between(1, 15);
            bytes.extend_from_slice(&random.bytes(more));
        }
        7 => bytes.truncate(length - random.between(1, 15)),
        8 => bytes[anywhere] = random.byte(),
        _ => bytes[anywhere] ^= 1 << random.below(8),
    }
    mend(&mut bytes);
    bytes
}
