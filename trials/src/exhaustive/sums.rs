//! The sum of bytes by itself, compared with the reference's.

use crate::mcfg::{ENTRY, HEADER, MOST_ENTRIES};
use crate::random::Random;

type Sum = fn(&[u8]) -> u8;

/// Eight steps of eight bytes.
const SHORT: usize = 64;
/// From one multiple of eight bytes to the next.
const ALIGNMENTS: usize = 8;
const ROOM: usize = HEADER + ENTRY * MOST_ENTRIES + ALIGNMENTS;

/// 0 to 64 bytes, and as many as tables of more have, to 64 entries.
fn lengths() -> impl Iterator<Item = usize> {
    let of_tables = (0..=MOST_ENTRIES).map(|entries| HEADER + ENTRY * entries);
    (0..=SHORT).chain(of_tables.filter(|length| *length > SHORT))
}

/// Strings of each length, of random bytes and of the greatest: at each alignment, with more bytes around it; and with each
/// byte changed, to every value in a short string.
pub fn every_length(sum: Sum) -> Result<u64, String> {
    let mut count = 0;
    for length in lengths() {
        for mut bytes in [Random::new(0).bytes(ROOM), vec![u8::MAX; ROOM]] {
            for alignment in 0..ALIGNMENTS {
                count += compare(sum, &bytes[alignment..alignment + length])?;
            }
            count += changed_bytes(sum, &mut bytes[..length])?;
        }
    }
    Ok(count)
}

/// Strings of each length, each an allocation that ends at its last byte; for valgrind.
pub fn exact_lengths(sum: Sum) -> Result<u64, String> {
    lengths()
        .map(|length| compare(sum, &Random::new(0).bytes(length).into_boxed_slice()))
        .sum()
}

fn changed_bytes(sum: Sum, bytes: &mut [u8]) -> Result<u64, String> {
    let values = match bytes.len() {
        ..=SHORT => (0..=u8::MAX).collect(),
        _ => vec![0, 1, 0x80, u8::MAX],
    };
    let mut count = 0;
    for index in 0..bytes.len() {
        let kept = bytes[index];
        for value in &values {
            bytes[index] = *value;
            count += compare(sum, bytes)?;
        }
        bytes[index] = kept;
    }
    Ok(count)
}

/// One comparison.
fn compare(sum: Sum, bytes: &[u8]) -> Result<u64, String> {
    let (came, expected) = (sum(bytes), reference::byte_sum(bytes));
    if came == expected {
        return Ok(1);
    }
    let length = bytes.len();
    Err(format!(
        "the sum of {length} bytes: {came} instead of {expected}: {bytes:?}"
    ))
}
