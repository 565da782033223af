//! The proved library's sums of bytes modulo 256, by themselves. They are no part of the service's boundary.

unsafe extern "C" {
    fn byte_sums_eight_to_a_step(bytes: *const u8, length: usize) -> u8;
    fn byte_sums_one_to_a_step(bytes: *const u8, length: usize) -> u8;
}

/// The sum that start takes of an MCFG table.
#[inline]
pub fn eight_to_a_step(bytes: &[u8]) -> u8 {
    // SAFETY: pointer and length of a slice.
    unsafe { byte_sums_eight_to_a_step(bytes.as_ptr(), bytes.len()) }
}

/// The sum that start took before document 02's request c; now that of the last few bytes.
#[inline]
pub fn one_to_a_step(bytes: &[u8]) -> u8 {
    // SAFETY: pointer and length of a slice.
    unsafe { byte_sums_one_to_a_step(bytes.as_ptr(), bytes.len()) }
}
