//! Record blocks: sound ones, and ones that break a rule or stand at its edge.

use std::ops::Range;

use reference::Refusal;

use crate::random::Random;

pub const MOST_BYTES: usize = 4096;

/// The greatest value of each number after the revision, by record type.
pub const LIMITS: [&[u32]; 3] = [&[255, 255, 1, 1], &[3, 7, 7], &REGISTER_LIMITS];
const ANY: u32 = u32::MAX;
/// Bits 5 to 7 and 12 to 14 of Device Control.
pub const PAYLOAD_SIZES: u32 = 0x70E0;
pub const DEVICE_CONTROL: usize = 4;
pub const REGISTERS: usize = 8;
/// The type of the record that has masks.
const EXPRESS: usize = 2;
/// Those of the registers' AND and OR masks.
pub const REGISTER_LIMITS: [u32; 2 * REGISTERS] = [
    ANY, ANY, ANY, ANY, ANY, ANY, ANY, ANY, 0xFFFF, 0xFFFF, 0xFFFF, 0xFFFF, ANY, ANY, ANY, ANY,
];

/// A field: tag, length, value.
pub fn field(tag: u8, value: &[u8]) -> Vec<u8> {
    let mut bytes = vec![tag];
    bytes.extend_from_slice(&(value.len() as u16).to_le_bytes());
    bytes.extend_from_slice(value);
    bytes
}

/// A field whose value is the revision and these numbers.
pub fn numbers_field(tag: u8, revision: u32, numbers: &[u32]) -> Vec<u8> {
    let mut value = revision.to_le_bytes().to_vec();
    for number in numbers {
        value.extend_from_slice(&number.to_le_bytes());
    }
    field(tag, &value)
}

/// Where the fields of a block lie, as far as they can be told apart.
pub fn fields(block: &[u8]) -> Vec<Range<usize>> {
    let mut fields = Vec::new();
    let mut start = 0;
    while let Some(header) = block.get(start..start + 3) {
        let end = start + 3 + usize::from(u16::from_le_bytes([header[1], header[2]]));
        if end > block.len() {
            break;
        }
        fields.push(start..end);
        start = end;
    }
    fields
}

/// A number not above the limit, which is one less than a power of two: at times 0, or the limit.
pub fn number_within(random: &mut Random, limit: u32) -> u32 {
    match random.below(8) {
        0 => 0,
        1 | 2 => limit,
        _ => random.word() & limit,
    }
}

fn numbers_within(random: &mut Random, record_type: usize) -> Vec<u32> {
    let limits = LIMITS[record_type].iter();
    let mut numbers: Vec<u32> = limits.map(|limit| number_within(random, *limit)).collect();
    if record_type == EXPRESS {
        give_meaning(random, &mut numbers);
    }
    numbers
}

/// The bits that are clear in the AND mask and set in the OR mask.
pub fn senseless_bits([and_mask, or_mask]: [u32; 2]) -> u32 {
    or_mask & !and_mask
}

/// How many pairs are senseless.
pub fn senseless_pairs(masks: &[u32]) -> usize {
    let (pairs, _) = masks.as_chunks();
    let senseless = pairs.iter().filter(|pair| senseless_bits(**pair) != 0);
    senseless.count()
}

/// Of the bits that are clear in the AND mask and set in the OR mask, sets some in both and clears the others in both.
pub fn give_meaning(random: &mut Random, masks: &mut [u32]) {
    let (pairs, _) = masks.as_chunks_mut();
    for pair in pairs {
        let some = random.word();
        let senseless = senseless_bits(*pair);
        pair[0] |= senseless & random.pick(&[0, ANY, some]);
        pair[1] &= pair[0];
    }
}

/// Makes one pair senseless: in the lowest bit, the highest, any, or some.
pub fn make_senseless(random: &mut Random, masks: &mut [u32]) {
    let register = random.below(REGISTERS);
    let limit = REGISTER_LIMITS[2 * register];
    let highest = limit - limit / 2;
    let any = 1 << random.below(limit.count_ones() as usize);
    let some = any | (random.word() & limit);
    let bits = random.pick(&[1, highest, any, some]);
    masks[2 * register] &= !bits;
    masks[2 * register + 1] |= bits;
}

/// Sets a number of a record. With a mask goes the other of its pair, as far as it must for the pair to have a meaning.
pub fn set_number(record_type: usize, numbers: &mut [u32], index: usize, value: u32) {
    numbers[index] = value;
    match (record_type, index % 2) {
        (EXPRESS, 0) => numbers[index + 1] &= value,
        (EXPRESS, _) => numbers[index - 1] |= value,
        _ => {}
    }
}

/// A sound revision 1 record of type 0, 1 or 2.
pub fn record(random: &mut Random, record_type: u8) -> Vec<u8> {
    let numbers = numbers_within(random, usize::from(record_type));
    numbers_field(record_type, 1, &numbers)
}

/// The AND and the OR mask of a register in the type 2 record of blocks that have one.
pub fn masks(slot: &[u8], bridge_block: &[u8], register: usize) -> [u32; 2] {
    let record = reference::find_record(slot, bridge_block, 2).expect("the blocks have a record");
    let numbers = numbers(record);
    [numbers[2 * register], numbers[2 * register + 1]]
}

/// The numbers of a record after the revision.
pub fn numbers(record: &[u8]) -> Vec<u32> {
    let (numbers, _) = record[3..].as_chunks();
    let numbers = numbers.iter().skip(1);
    numbers.map(|number| u32::from_le_bytes(*number)).collect()
}

/// Hands out the revision and the masks of each type 2 record that is whole, and puts the masks back.
pub fn each_express(block: &mut [u8], mut change: impl FnMut(u32, &mut [u32])) {
    for field in fields(block) {
        let field = &mut block[field];
        if usize::from(field[0]) != EXPRESS || field.len() != 7 + 4 * REGISTER_LIMITS.len() {
            continue;
        }
        let revision = u32::from_le_bytes([field[3], field[4], field[5], field[6]]);
        let mut masks = numbers(field);
        change(revision, &mut masks);
        field.copy_from_slice(&numbers_field(field[0], revision, &masks));
    }
}

/// Whether a block is unsound by one senseless pair alone.
pub fn is_senseless_alone(block: &[u8]) -> bool {
    let mut senseless = 0;
    let mut mended = block.to_vec();
    each_express(&mut mended, |revision, masks| {
        if revision == 1 {
            senseless += senseless_pairs(masks);
            mend(masks);
        }
    });
    let found = reference::find_record(&mended, &[], 2);
    senseless == 1 && found != Err(Refusal::RecordBlock)
}

/// Sets the bits of each OR mask in its AND mask. What the pair makes of a value stays the same.
pub fn mend(masks: &mut [u32]) {
    let (pairs, _) = masks.as_chunks_mut();
    for [and_mask, or_mask] in pairs {
        *and_mask |= *or_mask;
    }
}

/// Whether a type 2 record of another revision than 1 has a senseless pair.
pub fn is_senseless_elsewhere(block: &[u8]) -> bool {
    let mut senseless = 0;
    each_express(&mut block.to_vec(), |revision, masks| {
        if revision != 1 {
            senseless += senseless_pairs(masks);
        }
    });
    senseless > 0
}

/// A field that a search passes over: a tag above 2, or another revision, often with as many numbers as revision 1 has.
fn skipped_field(random: &mut Random) -> Vec<u8> {
    if random.one_in(2) {
        let length = random.below(12);
        let value = random.bytes(length);
        return field(random.pick(&[3, 4, 0x80, 255]), &value);
    }
    let revision = random.pick(&[0, 2, 0x101, 0x0100_0000, ANY]);
    let record_type: usize = random.pick(&[0, 1, EXPRESS, EXPRESS]);
    let count = match random.below(3) {
        0 => random.below(6),
        _ => LIMITS[record_type].len(),
    };
    let numbers: Vec<u32> = (0..count).map(|_| random.word()).collect();
    numbers_field(record_type as u8, revision, &numbers)
}

/// The fields of a sound block with records of these types among fields that are passed over.
fn sound_fields(random: &mut Random, types: &[u8]) -> Vec<Vec<u8>> {
    let mut fields: Vec<Vec<u8>> = types
        .iter()
        .map(|record_type| record(random, *record_type))
        .collect();
    for _ in 0..random.below(3) {
        fields.push(skipped_field(random));
    }
    random.shuffle(&mut fields);
    fields
}

/// A sound block with records of these types, each at most once.
pub fn sound_block(random: &mut Random, types: &[u8]) -> Vec<u8> {
    sound_fields(random, types).concat()
}

fn some_types(random: &mut Random) -> Vec<u8> {
    let all: [&[u8]; 8] = [&[0, 1, 2], &[2], &[0, 2], &[1, 2], &[0, 1], &[0], &[1], &[]];
    let with_masks = random.one_in(4);
    random
        .pick(if with_masks { &all[..4] } else { &all })
        .to_vec()
}

/// The slot's block and the bridge's: either may be empty, sound, or spoiled.
pub fn pair(random: &mut Random) -> (Vec<u8>, Vec<u8>) {
    let slot = if random.one_in(2) {
        Vec::new()
    } else {
        any_block(random)
    };
    let bridge_block = if random.one_in(12) {
        Vec::new()
    } else {
        any_block(random)
    };
    (slot, bridge_block)
}

fn any_block(random: &mut Random) -> Vec<u8> {
    let types = some_types(random);
    let mut fields = sound_fields(random, &types);
    match random.below(12) {
        0 => spoil_fields(random, &mut fields),
        1 => return cut_or_extended(random, fields.concat()),
        2 if random.one_in(3) => return padded(random, fields.concat()),
        3 | 4 => put_senseless(random, &mut fields),
        _ => {}
    }
    fields.concat()
}

/// Puts a type 2 record with one senseless pair among the fields of a sound block, instead of the type 2 record that it may have.
fn put_senseless(random: &mut Random, fields: &mut Vec<Vec<u8>>) {
    fields.retain(|field| reference::find_record(field, &[], 2).is_err());
    let mut masks = numbers_within(random, EXPRESS);
    make_senseless(random, &mut masks);
    let index = random.below(fields.len() + 1);
    fields.insert(index, numbers_field(EXPRESS as u8, 1, &masks));
}

/// Makes one field wrong, or stand at the edge of a rule.
fn spoil_fields(random: &mut Random, fields: &mut Vec<Vec<u8>>) {
    if fields.is_empty() {
        fields.push(field(random.pick(&[0, 1, 2]), &[1, 0, 0]));
        return;
    }
    let index = random.below(fields.len());
    let chosen = &mut fields[index];
    match random.below(6) {
        0 => *chosen = beyond_limit(random),
        1 => {
            let copy = chosen.clone();
            fields.insert(random.below(index + 1), copy);
        }
        2 => {
            let length = u16::from_le_bytes([chosen[1], chosen[2]]);
            let changed = length.wrapping_add_signed(random.pick(&[1, -1, 4, -4, 256]));
            chosen[1..3].copy_from_slice(&changed.to_le_bytes());
        }
        3 => *chosen = wrong_length(random),
        4 => chosen[0] = random.pick(&[0, 1, 2, 3]),
        _ => {
            let index = random.below(chosen.len());
            chosen[index] = random.byte();
        }
    }
}

/// A record with one number at its limit plus one; its masks have a meaning.
fn beyond_limit(random: &mut Random) -> Vec<u8> {
    let record_type = random.below(3);
    let mut numbers = numbers_within(random, record_type);
    let index = random.below(numbers.len());
    let limit = LIMITS[record_type][index];
    let value = random.pick(&[limit.wrapping_add(1), limit | 0x8000_0000]);
    set_number(record_type, &mut numbers, index, value);
    numbers_field(record_type as u8, 1, &numbers)
}

/// A record of tag 0 to 2 whose field agrees with itself, but with a length off by 1 or 4, or below 4.
fn wrong_length(random: &mut Random) -> Vec<u8> {
    let record_type = random.below(3) as u8;
    let mut value = record(random, record_type).split_off(3);
    match random.below(4) {
        0 => value.truncate(value.len() - 4),
        1 => value.extend_from_slice(&random.bytes(4)),
        2 => value.truncate(value.len() - 1),
        _ => value.truncate(random.below(5)),
    }
    field(record_type, &value)
}

fn cut_or_extended(random: &mut Random, mut block: Vec<u8>) -> Vec<u8> {
    if random.one_in(3) {
        let more = random.between(1, 3);
        block.extend_from_slice(&random.bytes(more));
    } else {
        block.truncate(random.below(block.len() + 1));
    }
    block
}

/// The block with skipped fields at its end or beginning, so that it has 4095 to 4097 bytes.
fn padded(random: &mut Random, block: Vec<u8>) -> Vec<u8> {
    let length = random.pick(&[MOST_BYTES - 1, MOST_BYTES, MOST_BYTES + 1]);
    let filler = filler(random, length - block.len());
    if random.one_in(2) {
        [filler, block].concat()
    } else {
        [block, filler].concat()
    }
}

/// So many bytes, at least 3, of skipped fields: one, or as many as there is room for.
fn filler(random: &mut Random, bytes: usize) -> Vec<u8> {
    let before = random.pick(&[0, bytes / 3 - 1]);
    let last = random.bytes(bytes - 3 * (before + 1));
    [field(3, &[]).repeat(before), field(3, &last)].concat()
}
