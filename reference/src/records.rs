//! Record blocks: the _HPX setting records.

use crate::limits::{MAX_BLOCK, MAX_BYTE, MAX_ENABLE, MAX_READ_COUNT, MAX_SPLITS, MAX_WORD};
use crate::masks::Masks;
use crate::refusal::Refusal;

/// The type of the PCI setting record.
pub(crate) const PCI: u8 = 0;
/// The type of the PCI-X setting record.
pub(crate) const PCI_X: u8 = 1;
/// The type of the PCI Express setting record.
pub(crate) const PCI_EXPRESS: u8 = 2;
/// Bytes before a field's value: the tag and the length.
pub(crate) const FIELD_HEADER: usize = 3;
/// The record revision that is understood.
pub(crate) const REVISION: u32 = 1;

/// A 4-byte little-endian number as it stands in a value.
pub(crate) type Number = [u8; 4];

/// A sound revision 1 record.
#[derive(Clone, Copy)]
pub(crate) struct Record<'a> {
    /// The field whole, header included.
    field: &'a [u8],
    /// The numbers after the revision.
    pub(crate) numbers: &'a [Number],
}

/// What one field at the start of a block is.
enum Field<'a> {
    /// A sound revision 1 record of type 0, 1 or 2.
    Record(u8, Record<'a>),
    /// A field of another tag or revision.
    Skipped,
}

/// Finds the revision 1 record of the asked type in the deciding block.
#[inline(never)]
pub fn find_record<'a>(
    slot: &'a [u8],
    bridge_block: &'a [u8],
    record_type: u32,
) -> Result<&'a [u8], Refusal> {
    search(slot, bridge_block, record_type).map(|record| record.field)
}

/// Checks the deciding block to its end, then hands back the record of the asked type.
#[inline]
pub(crate) fn search<'a>(
    slot: &'a [u8],
    bridge_block: &'a [u8],
    record_type: u32,
) -> Result<Record<'a>, Refusal> {
    let mut rest = if slot.is_empty() { bridge_block } else { slot };
    if rest.len() > MAX_BLOCK {
        return Err(Refusal::RecordBlock);
    }
    let mut records = [None; 3];
    while !rest.is_empty() {
        let Some((field, after)) = take_field(rest) else {
            return Err(Refusal::RecordBlock);
        };
        if let Field::Record(tag, record) = field
            && records[usize::from(tag)].replace(record).is_some()
        {
            return Err(Refusal::RecordBlock);
        }
        rest = after;
    }
    let asked = usize::try_from(record_type).ok();
    let found = asked.and_then(|tag| *records.get(tag)?);
    found.ok_or(Refusal::NoRecord)
}

/// Takes the first field off a block that is not empty; `None` when it is unsound.
#[inline]
fn take_field(block: &[u8]) -> Option<(Field<'_>, &[u8])> {
    let (&[tag, l0, l1], after_header) = block.split_first_chunk::<FIELD_HEADER>()?;
    let length = usize::from(u16::from_le_bytes([l0, l1]));
    let (value, after) = after_header.split_at_checked(length)?;
    if tag > PCI_EXPRESS {
        return Some((Field::Skipped, after));
    }
    let ([revision, numbers @ ..], []) = value.as_chunks() else {
        return None;
    };
    if u32::from_le_bytes(*revision) != REVISION {
        return Some((Field::Skipped, after));
    }
    if !within_limits(tag, numbers) {
        return None;
    }
    let field = &block[..FIELD_HEADER + length];
    Some((Field::Record(tag, Record { field, numbers }), after))
}

/// Whether the numbers after revision 1 are as many as the type has, none is too large and, document 02, h, each pair has a meaning.
#[inline]
fn within_limits(tag: u8, numbers: &[Number]) -> bool {
    match (tag, numbers) {
        (PCI, [cache_line, latency, serr, perr]) => {
            at_most(MAX_BYTE, [cache_line, latency]) && at_most(MAX_ENABLE, [serr, perr])
        }
        (PCI_X, [read_count, average_splits, total_splits]) => {
            at_most(MAX_READ_COUNT, [read_count])
                && at_most(MAX_SPLITS, [average_splits, total_splits])
        }
        (PCI_EXPRESS, [_, _, _, _, _, _, _, _, words @ .., _, _, _, _]) if words.len() == 4 => {
            at_most(MAX_WORD, words) && pairs(numbers).all(Masks::has_meaning)
        }
        _ => false,
    }
}

/// The pairs of masks of a PCI Express setting record, by the numbers after its revision.
#[inline]
pub(crate) fn pairs(numbers: &[Number]) -> impl Iterator<Item = Masks> {
    let (pairs, _) = numbers.as_chunks();
    pairs.iter().map(|&[and, or]| Masks {
        and: u32::from_le_bytes(and),
        or: u32::from_le_bytes(or),
    })
}

/// Whether none of the numbers is above the limit.
#[inline]
fn at_most<'a>(limit: u32, numbers: impl IntoIterator<Item = &'a Number>) -> bool {
    numbers
        .into_iter()
        .all(|&number| u32::from_le_bytes(number) <= limit)
}
