//! The record search, which takes no table.
use crate::refusal::{Refusal, done};
use crate::sys;

/// Finds the revision 1 _HPX setting record of a type (0, 1 or 2) in the slot's and the bridge's record blocks, of 0 to 4096 bytes. If the
/// slot's block is not empty it alone decides. The record is a part of the block that decided, its three bytes of header included;
/// [`Settings::read`](crate::Settings::read) gives the values of a block's records.
///
/// A type 2 record of revision 1 with [`Masks`](crate::Masks) that have no meaning makes its block unsound, whatever type is asked for.
///
/// # Errors
///
/// [`RecordBlock`](Refusal::RecordBlock), then [`NoRecord`](Refusal::NoRecord).
///
/// ```
/// use slipwattle::{Refusal, find_record};
///
/// // Type 1, 16 bytes: revision 1, read count 3, split counts 4 and 7.
/// let block = [1, 16, 0, 1, 0, 0, 0, 3, 0, 0, 0, 4, 0, 0, 0, 7, 0, 0, 0];
/// assert_eq!(find_record(&[], &block, 1)?, block);
/// assert_eq!(find_record(&[], &block, 0), Err(Refusal::NoRecord));
/// assert_eq!(find_record(&block[..18], &block, 1), Err(Refusal::RecordBlock));
/// # Ok::<(), Refusal>(())
/// ```
pub fn find_record<'a>(
    slot: &'a [u8],
    bridge_block: &'a [u8],
    record_type: u32,
) -> Result<&'a [u8], Refusal> {
    // SAFETY: each pointer leads to its length of bytes, which the call only reads.
    let found = unsafe {
        sys::slipwattle_find_record(
            slot.as_ptr(),
            slot.len(),
            bridge_block.as_ptr(),
            bridge_block.len(),
            record_type,
        )
    };
    done(found.number)?;
    let block = if found.in_slot { slot } else { bridge_block };
    Ok(&block[found.start..][..found.size])
}
