//! The arguments of _OSC calls.

use crate::call::Osc;
use crate::editions::SUPPORT_7;
use crate::random::Random;

/// UUID 33db4d5b-1ff7-401c-9657-7441c03dd766 as it stands in the buffer.
pub const UUID: [u8; 16] = [
    0x5B, 0x4D, 0xDB, 0x33, 0xF7, 0x1F, 0x1C, 0x40, 0x96, 0x57, 0x74, 0x41, 0xC0, 0x3D, 0xD7, 0x66,
];
/// The same UUID in the order in which it is printed.
pub const PRINTED_UUID: [u8; 16] = [
    0x33, 0xDB, 0x4D, 0x5B, 0x1F, 0xF7, 0x40, 0x1C, 0x96, 0x57, 0x74, 0x41, 0xC0, 0x3D, 0xD7, 0x66,
];

pub const QUERY: u32 = 1;

/// A little-endian DWORD.
pub fn dword(bytes: &[u8], index: usize) -> u32 {
    let (words, _) = bytes.as_chunks::<4>();
    u32::from_le_bytes(words[index])
}

/// A framed call with the right UUID and revision.
pub fn right_call(session: u8, bridge: u8, status: u32, support: u32, control: u32) -> Osc {
    Osc {
        session,
        bridge,
        revision: 1,
        count: 3,
        uuid: UUID.to_vec().into(),
        capabilities: [status, support, control]
            .map(u32::to_le_bytes)
            .concat()
            .into(),
        answer: vec![0xEE; 12].into(),
    }
}

/// Half of these calls are right; the others have one or more arguments that are wrong or near.
pub fn any_call(random: &mut Random, session: u8, bridge: u8) -> Osc {
    let status = (random.word() & !QUERY & random.pick(&[0, 0, ANY])) | u32::from(random.one_in(3));
    let support = any_support(random);
    let control = any_control(random);
    let mut call = right_call(session, bridge, status, support, control);
    if random.one_in(2) {
        spoil(random, &mut call);
    }
    call
}

const ANY: u32 = u32::MAX;

/// Half of these declare support bit 7.
fn any_support(random: &mut Random) -> u32 {
    let others = random.word() & random.pick(&[0x1F, 0x1FF, 0x3FF, ANY]);
    (others & !SUPPORT_7) | random.pick(&[0, SUPPORT_7])
}

/// Bits of the old edition, and bits of edition 3.3 with those that they need and without.
fn any_control(random: &mut Random) -> u32 {
    let low = random.word() & 0x3F;
    let ten = random.word() & 0x3FF;
    let any = random.word();
    let old = [
        0x1F, 0x17, 0x11, 0x19, 0x10, 0x0D, 0x01, 0x02, 0x3F, ANY, low, low, low, any,
    ];
    let edition_3_3 = [
        0x3FF, 0x3FF, 0x98, 0x99, 0x88, 0x90, 0x18, 0x3EF, 0x12, 0x400, ten, ten, ten,
    ];
    let from: &[u32] = if random.one_in(2) { &old } else { &edition_3_3 };
    random.pick(from)
}

/// The DWORDs of calls that take control of a bridge of edition 3.3: bits 3, 4 and 7 with a query before, or with support bit 7 declared
/// by an earlier call, or without one of them; then, at times, held bits asked for again without what they need.
pub fn taking_3_3(random: &mut Random) -> Vec<[u32; 3]> {
    let support = any_support(random);
    let control = random.pick(&[0x3FF, 0x99, 0x99]);
    let mut dwords = match random.below(8) {
        0 | 1 => vec![
            [0, support | SUPPORT_7, random.pick(&[0, 0x10, 0x11, 0x19])],
            [0, support & !SUPPORT_7, control],
        ],
        2..=5 => vec![[QUERY, support, control], [0, support, control]],
        _ => vec![[0, support, random.pick(&[0x1F, 0x91, 0x91, 0x91])]],
    };
    if random.one_in(8) {
        dwords.push([
            0,
            any_support(random),
            random.pick(&[0x01, 0x08, 0x80, 0x88]),
        ]);
    }
    dwords
}

fn spoil(random: &mut Random, call: &mut Osc) {
    if random.one_in(4) {
        call.uuid.replace(&any_uuid(random));
    }
    if random.one_in(4) {
        call.revision = random.pick(&[0, 2, 0x101, 0x1_0001, 0x0100_0000, 0x8000_0001, ANY]);
    }
    if random.one_in(2) {
        call.count = random.pick(&[0, 1, 2, 2, 4, 4, 7, 8, 8, 9, 0x4000_0003, 0x8000_0003, ANY]);
    }
    let framed = call.count.wrapping_mul(4).min(64) as usize;
    let mut capabilities = call.capabilities.lent().to_vec();
    capabilities.resize(near(random, framed), 0xFF);
    call.capabilities.replace(&capabilities);
    let answer_length = near(random, framed);
    call.answer.replace(&random.bytes(answer_length));
}

/// The length, or once in eight times one that is off by 1 or by 4.
fn near(random: &mut Random, length: usize) -> usize {
    if random.one_in(8) {
        length.saturating_add_signed(random.pick(&[1, -1, 4, -4]))
    } else {
        length
    }
}

fn any_uuid(random: &mut Random) -> Vec<u8> {
    let mut uuid = UUID.to_vec();
    match random.below(7) {
        0..=2 => uuid = PRINTED_UUID.to_vec(),
        3 => uuid[random.below(16)] ^= 1 << random.below(8),
        4 => uuid.truncate(random.pick(&[0, 8, 15, 15])),
        5 => uuid.push(random.byte()),
        _ => uuid = random.bytes(16),
    }
    uuid
}
