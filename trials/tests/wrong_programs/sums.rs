//! Sums of bytes, eight to a step, that are wrong at some length.

use reference::byte_sum;
use trials::exhaustive::sums::every_length;

/// At how many bytes the first difference is.
fn found_at(sum: fn(&[u8]) -> u8) -> usize {
    let why = every_length(sum).expect_err("a wrong sum");
    let length = why
        .strip_prefix("the sum of ")
        .and_then(|rest| rest.split(' ').next());
    length
        .and_then(|digits| digits.parse().ok())
        .unwrap_or_else(|| panic!("{why}"))
}

#[test]
fn the_last_few_left_out() {
    assert_eq!(found_at(|b| byte_sum(&b[..b.len() - b.len() % 8])), 1);
}

/// Sound tables have four bytes more than a multiple of eight.
#[test]
fn the_last_few_left_out_unless_they_are_four() {
    let wrong = |b: &[u8]| match b.len() % 8 {
        4 => byte_sum(b),
        few => byte_sum(&b[..b.len() - few]),
    };
    assert_eq!(found_at(wrong), 1);
}

#[test]
fn one_of_the_last_seven_left_out() {
    let wrong = |b: &[u8]| match b.len() % 8 {
        7 => byte_sum(&b[1..]),
        _ => byte_sum(b),
    };
    assert_eq!(found_at(wrong), 7);
}

#[test]
fn the_last_eight_left_out() {
    let wrong = |b: &[u8]| match b.len() {
        0 => 0,
        n if n.is_multiple_of(8) => byte_sum(&b[..n - 8]),
        _ => byte_sum(b),
    };
    assert_eq!(found_at(wrong), 8);
}

#[test]
fn a_lane_left_out() {
    let wrong = |b: &[u8]| {
        let (eights, rest) = b.as_chunks::<8>();
        let without_last = eights.iter().map(|eight| byte_sum(&eight[..7]));
        without_last.fold(byte_sum(rest), u8::wrapping_add)
    };
    assert_eq!(found_at(wrong), 8);
}

#[test]
fn a_second_step_left_out() {
    let wrong = |b: &[u8]| {
        let (eights, rest) = b.as_chunks::<8>();
        let every_second = eights.iter().step_by(2).map(|eight| byte_sum(eight));
        every_second.fold(byte_sum(rest), u8::wrapping_add)
    };
    assert_eq!(found_at(wrong), 16);
}

/// Each byte but the last of a step carries into the next.
#[test]
fn words_added_as_they_are() {
    let wrong = |b: &[u8]| {
        let (eights, rest) = b.as_chunks::<8>();
        let words = eights.iter().map(|eight| u64::from_le_bytes(*eight));
        let bytes = words.fold(0, u64::wrapping_add).to_le_bytes();
        byte_sum(&bytes).wrapping_add(byte_sum(rest))
    };
    assert_eq!(found_at(wrong), 16);
}

/// A sum of 16 bits takes two bytes in a step. It has room for 128 steps, and may then carry into the next.
#[test]
fn sums_of_16_bits_that_carry_in_a_long_table() {
    let wrong = |b: &[u8]| {
        const EVERY_SECOND: u64 = 0x00FF_00FF_00FF_00FF;
        let (eights, rest) = b.as_chunks::<8>();
        let sums = eights.iter().fold(0, |sums: u64, eight| {
            let word = u64::from_le_bytes(*eight);
            sums.wrapping_add((word & EVERY_SECOND) + (word >> 8 & EVERY_SECOND))
        });
        let sum = sums
            .to_le_bytes()
            .into_iter()
            .step_by(2)
            .fold(0, u8::wrapping_add);
        sum.wrapping_add(byte_sum(rest))
    };
    assert_eq!(found_at(wrong), 1036);
}
