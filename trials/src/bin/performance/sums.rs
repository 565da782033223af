//! Ways to sum an MCFG table: the proved library's, and others to compare it with.

use std::arch::asm;

use trials::sums::{eight_to_a_step, one_to_a_step};

/// A way to add all bytes modulo 256.
pub struct Way {
    pub name: &'static str,
    /// One jump to the sum itself.
    pub sum: fn(&[u8]) -> u8,
}

pub const WAYS: [Way; 8] = [
    Way {
        name: "the proved library's: eight bytes to a step, eight sums",
        sum: |bytes| eight_to_a_step(bytes),
    },
    Way {
        name: "the proved library's before: a byte to a step",
        sum: |bytes| one_to_a_step(bytes),
    },
    Way {
        name: "in Rust: a byte to a step, kept scalar",
        sum: |bytes| kept_scalar(bytes),
    },
    Way {
        name: "the reference's, in Rust: a byte to a step",
        sum: |bytes| reference::byte_sum(bytes),
    },
    Way {
        name: "in Rust: eight bytes to a step, eight sums",
        sum: |bytes| eight_sums(bytes),
    },
    Way {
        name: "in Rust: eight bytes to a step, eight sums in a u64",
        sum: |bytes| eight_sums_in_a_u64(bytes),
    },
    Way {
        name: "in Rust: eight bytes to a step, one sum",
        sum: |bytes| one_sum(bytes),
    },
    Way {
        name: "in Rust: eight bytes to a step, four sums in a u64",
        sum: |bytes| four_sums_in_a_u64(bytes),
    },
];

fn added(total: u8, bytes: &[u8]) -> u8 {
    bytes
        .iter()
        .fold(total, |total, byte| total.wrapping_add(*byte))
}

/// The empty assembly text may do anything to the sum, so that the compiler adds one byte at a time.
#[inline(never)]
fn kept_scalar(bytes: &[u8]) -> u8 {
    let mut total: u8 = 0;
    for byte in bytes {
        total = total.wrapping_add(*byte);
        // SAFETY: no instruction.
        unsafe { asm!("/* {0} */", inout(reg_byte) total, options(pure, nomem, nostack)) };
    }
    total
}

#[inline(never)]
fn eight_sums(bytes: &[u8]) -> u8 {
    let (eights, rest) = bytes.as_chunks::<8>();
    let mut sums = [0u8; 8];
    for eight in eights {
        for (sum, byte) in sums.iter_mut().zip(eight) {
            *sum = sum.wrapping_add(*byte);
        }
    }
    added(added(0, &sums), rest)
}

/// The top bit of each sum is added apart, so that none carries into the next.
#[inline(never)]
fn eight_sums_in_a_u64(bytes: &[u8]) -> u8 {
    const TOP: u64 = 0x8080_8080_8080_8080;
    let (eights, rest) = bytes.as_chunks::<8>();
    let sums = eights.iter().fold(0, |sums: u64, eight| {
        let word = u64::from_le_bytes(*eight);
        ((sums & !TOP) + (word & !TOP)) ^ ((sums ^ word) & TOP)
    });
    added(added(0, &sums.to_le_bytes()), rest)
}

#[inline(never)]
fn one_sum(bytes: &[u8]) -> u8 {
    let (eights, rest) = bytes.as_chunks::<8>();
    let total = eights.iter().fold(0, |total, eight| added(total, eight));
    added(total, rest)
}

/// Each sum has 16 bits and takes two bytes in a step, so that there is room for 128 steps.
#[inline(never)]
fn four_sums_in_a_u64(bytes: &[u8]) -> u8 {
    const EVERY_SECOND: u64 = 0x00FF_00FF_00FF_00FF;
    let (eights, rest) = bytes.as_chunks::<8>();
    let total = eights.chunks(128).fold(0, |total: u8, steps| {
        let sums = steps.iter().fold(0, |sums, eight| {
            let word = u64::from_le_bytes(*eight);
            sums + (word & EVERY_SECOND) + (word >> 8 & EVERY_SECOND)
        });
        let all = (sums & EVERY_SECOND).wrapping_mul(0x0001_0001_0001_0001) >> 48;
        total.wrapping_add(all as u8)
    });
    added(total, rest)
}
