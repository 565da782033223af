//! Writers of records that misread document 02, g. Each is the right one with one rule changed; senseless.rs has those that misread its h.

use trials::blocks;
use trials::buffer::GUARD;
use trials::call::{Call, WriteRecords};
use trials::exhaustive::{masks, writer};
use trials::given::{Given, Handed};
use trials::service::{Pair, Service};
use trials::settings::{LIMITS, MASKS, MOST_BYTES, OF_TYPE, Settings, TYPES};

use crate::wrong::{Wrong, found, pair, tried};

/// Bytes of each record, header included.
const BYTES: [usize; TYPES] = [23, 19, 71];
const SHORTEST: usize = BYTES[1];

pub struct Rules {
    /// The types, as they are laid down.
    pub order: [usize; TYPES],
    /// Whether a record is present, by its flag.
    pub present: fn(u8) -> bool,
    /// Whether its values count, by its flag.
    pub counts: fn(u8) -> bool,
    /// Whether a value is in range; values are counted over all types.
    pub in_range: fn(usize, u32) -> bool,
    /// Whether its pairs of masks count, by its flag.
    pub pairs_count: fn(u8) -> bool,
    /// Whether the pair of a register is senseless.
    pub senseless: fn(usize, [u32; 2]) -> bool,
    pub revision: u32,
    /// The length field of so many bytes.
    pub length: fn(usize) -> [u8; 2],
    pub number: fn(u32) -> [u8; 4],
    /// The numbers of a type in the order in which they are laid down.
    pub numbers: fn(usize, Vec<u32>) -> Vec<u32>,
    /// Whether records of so many bytes have room in a buffer of so many.
    pub room: fn(usize, usize) -> bool,
    /// The number, by whether all values are in range, no pair is senseless, and there is room.
    pub number_given: fn(bool, bool, bool) -> u8,
    /// What is handed back of fields that are written.
    pub handed: fn(&[Vec<u8>]) -> usize,
    /// What is handed back of fields that are refused.
    pub handed_refused: fn(&[Vec<u8>]) -> usize,
    pub put: fn(&mut [u8], &[u8]),
    pub put_refused: fn(&mut [u8], &[u8]),
}

pub const RIGHT: Rules = Rules {
    order: [0, 1, 2],
    present: |flag| flag != 0,
    counts: |flag| flag != 0,
    in_range: |index, value| value <= LIMITS[index],
    pairs_count: |flag| flag != 0,
    senseless: |_, pair| blocks::senseless_bits(pair) != 0,
    revision: 1,
    length: |bytes| (bytes as u16).to_le_bytes(),
    number: u32::to_le_bytes,
    numbers: |_, numbers| numbers,
    room: |bytes, buffer| bytes <= buffer,
    number_given: |in_range, meaningful, room| match (in_range && meaningful, room) {
        (false, _) => 14,
        (true, false) => 15,
        (true, true) => 0,
    },
    handed: bytes_of,
    handed_refused: |_| 0,
    put: put_at_start,
    put_refused: |_, _| (),
};

fn bytes_of(fields: &[Vec<u8>]) -> usize {
    fields.iter().map(Vec::len).sum()
}

/// Puts bytes in, as far as the buffer has room.
fn put_at_start(buffer: &mut [u8], bytes: &[u8]) {
    for (place, byte) in buffer.iter_mut().zip(bytes) {
        *place = *byte;
    }
}

impl Rules {
    fn field(&self, settings: &Settings, record_type: usize) -> Vec<u8> {
        let values = settings.of_type(record_type).to_vec();
        let numbers = (self.numbers)(record_type, values);
        let value = [vec![self.revision], numbers].concat();
        let value: Vec<u8> = value.into_iter().flat_map(self.number).collect();
        let header = [&[record_type as u8][..], &(self.length)(value.len())].concat();
        [header, value].concat()
    }

    fn fields(&self, settings: &Settings) -> Vec<Vec<u8>> {
        let present = self.order.into_iter();
        let present = present.filter(|k| (self.present)(settings.flags[*k]));
        present.map(|k| self.field(settings, k)).collect()
    }

    fn in_ranges(&self, settings: &Settings) -> bool {
        let mut counting = (0..TYPES).filter(|k| (self.counts)(settings.flags[*k]));
        counting.all(|k| {
            let mut values = OF_TYPE[k].clone();
            values.all(|index| (self.in_range)(index, settings.values[index]))
        })
    }

    fn meaningful(&self, settings: &Settings) -> bool {
        let (pairs, _) = settings.values[MASKS].as_chunks();
        let mut senseless = pairs.iter().enumerate();
        let senseless = senseless.any(|(register, pair)| (self.senseless)(register, *pair));
        !senseless || !(self.pairs_count)(settings.flags[2])
    }

    fn write(&self, settings: &Settings, buffer: &mut [u8]) -> (u8, usize) {
        let fields = self.fields(settings);
        let room = (self.room)(bytes_of(&fields), buffer.len());
        let (in_range, meaningful) = (self.in_ranges(settings), self.meaningful(settings));
        let number = (self.number_given)(in_range, meaningful, room);
        let (put, handed) = match number {
            0 => (self.put, self.handed),
            _ => (self.put_refused, self.handed_refused),
        };
        put(buffer, &fields.concat());
        (number, handed(&fields))
    }
}

/// The reference, with a writer by these rules.
pub fn written(wrong: &mut Wrong, call: &mut Call, rules: &Rules) -> Given {
    let Call::WriteRecords(write) = call else {
        return wrong.reference.call(call);
    };
    let (number, length) = rules.write(&write.settings, write.buffer.lent_mut());
    Given {
        number,
        handed: Handed::Written { length },
    }
}

/// The call that shows wrong rules by itself, and the bytes of its buffer.
fn found_write(make: fn() -> Pair) -> (WriteRecords, usize) {
    let found = found(make);
    match &found.list[..] {
        [Call::WriteRecords(write)] => (write.clone(), write.buffer.lent().len()),
        _ => panic!("{}", found.report()),
    }
}

pub type Comparison = fn(fn() -> Pair) -> Result<u64, String>;

/// A call with a buffer of so many bytes shows wrong rules, and an exhaustive comparison does. Gives its settings.
pub fn found_in(buffer: usize, comparison: Comparison, make: fn() -> Pair) -> Settings {
    let (write, bytes) = found_write(make);
    assert_eq!(bytes, buffer, "{write:x?}");
    assert!(comparison(make).is_err());
    write.settings
}

/// A program that writes with some rules changed.
macro_rules! wrongly {
    ($($rule:ident: $changed:expr),+) => {
        || {
            pair(|wrong, call| {
                let rules = Rules {
                    $($rule: $changed,)+
                    ..RIGHT
                };
                written(wrong, call, &rules)
            })
        }
    };
}
pub(crate) use wrongly;

#[test]
fn the_rules_hold_of_every_write() {
    let right = wrongly!(revision: 1);
    assert!(tried(right).is_ok());
    for comparison in [
        writer::choices,
        writer::flags,
        writer::values,
        writer::again,
        writer::orders,
        writer::changed_bytes,
        masks::pairs,
    ] {
        comparison(right).unwrap();
    }
}

#[test]
fn types_in_falling_order() {
    let falling = wrongly!(order: [2, 1, 0]);
    found_in(BYTES[0] + BYTES[1], writer::choices, falling);
}

#[test]
fn type_2_before_type_1() {
    let order = wrongly!(order: [0, 2, 1]);
    found_in(BYTES[1] + BYTES[2], writer::again, order);
}

#[test]
fn refusal_15_before_14() {
    let early = wrongly!(number_given: |in_range, meaningful, room| {
        match (in_range && meaningful, room) {
            (_, false) => 15,
            (false, true) => 14,
            (true, true) => 0,
        }
    });
    found_in(0, writer::choices, early);
}

/// The byte is inside the buffer.
#[test]
fn a_byte_behind_the_records_written() {
    let behind = wrongly!(put: |buffer, bytes| {
        put_at_start(buffer, bytes);
        if let Some(byte) = buffer.get_mut(bytes.len()) {
            *byte = !*byte;
        }
    });
    found_in(1, writer::choices, behind);
}

#[test]
fn the_rest_of_the_buffer_cleared() {
    let cleared = wrongly!(put: |buffer, bytes| {
        buffer.fill(0);
        put_at_start(buffer, bytes);
    });
    found_in(1, writer::choices, cleared);
}

fn writes_after_the_buffer(wrong: &mut Wrong, call: &mut Call) -> Given {
    let given = wrong.reference.call(call);
    if let (0, Call::WriteRecords(write)) = (given.number, call) {
        let whole = write.buffer.whole_mut();
        whole[whole.len() - GUARD] = 0;
    }
    given
}

#[test]
fn a_byte_after_the_buffer_written() {
    found_in(0, writer::choices, || pair(writes_after_the_buffer));
}

#[test]
fn records_at_the_end_of_the_buffer() {
    let at_end = wrongly!(put: |buffer, bytes| {
        let start = buffer.len() - bytes.len();
        put_at_start(&mut buffer[start..], bytes);
    });
    found_in(SHORTEST + 1, writer::choices, at_end);
}

#[test]
fn the_length_without_headers() {
    let without = wrongly!(handed: |fields| bytes_of(fields) - 3 * fields.len());
    found_in(SHORTEST, writer::choices, without);
}

#[test]
fn the_length_of_the_last_record_alone() {
    let last = wrongly!(handed: |fields| fields.last().map_or(0, Vec::len));
    found_in(BYTES[0] + BYTES[1], writer::choices, last);
}

#[test]
fn a_length_beside_a_refusal() {
    let beside = wrongly!(handed_refused: bytes_of);
    found_in(0, writer::choices, beside);
}

#[test]
fn revision_0() {
    found_in(SHORTEST, writer::choices, wrongly!(revision: 0));
}

#[test]
fn revision_2() {
    found_in(SHORTEST, writer::choices, wrongly!(revision: 2));
}

#[test]
fn absent_values_that_count() {
    let settings = found_in(0, writer::choices, wrongly!(counts: |_| true));
    assert_eq!(settings.flags, [0, 0, 0]);
}

#[test]
fn absent_records_laid_down() {
    let settings = found_in(0, writer::choices, wrongly!(present: |_| true));
    assert_eq!(settings.flags, [0, 0, 0]);
}

/// A flag of 2 shows it.
#[test]
fn flag_1_alone_for_present() {
    let one = wrongly!(
        present: |flag| flag == 1,
        counts: |flag| flag == 1,
        pairs_count: |flag| flag == 1
    );
    let settings = found_in(0, writer::flags, one);
    assert_eq!(settings.flags.iter().sum::<u8>(), 2);
}

#[test]
fn bit_0_of_a_flag_for_present() {
    let odd = wrongly!(
        present: |flag| flag & 1 == 1,
        counts: |flag| flag & 1 == 1,
        pairs_count: |flag| flag & 1 == 1
    );
    let settings = found_in(0, writer::flags, odd);
    assert_eq!(settings.flags.iter().sum::<u8>(), 2);
}

#[test]
fn the_length_field_big_endian() {
    let big = wrongly!(length: |bytes| (bytes as u16).to_be_bytes());
    found_in(SHORTEST, writer::choices, big);
}

#[test]
fn the_length_field_with_header() {
    let whole = wrongly!(length: |bytes| (bytes as u16 + 3).to_le_bytes());
    found_in(SHORTEST, writer::choices, whole);
}

#[test]
fn the_length_field_without_revision() {
    let without = wrongly!(length: |bytes| (bytes as u16 - 4).to_le_bytes());
    found_in(SHORTEST, writer::choices, without);
}

#[test]
fn numbers_big_endian() {
    let big = wrongly!(number: u32::to_be_bytes);
    found_in(SHORTEST, writer::choices, big);
}

#[test]
fn and_mask_and_or_mask_exchanged() {
    let exchanged = wrongly!(numbers: |record_type, mut numbers| {
        if record_type == 2 {
            let (pairs, _) = numbers.as_chunks_mut::<2>();
            pairs.iter_mut().for_each(|[and, or]| std::mem::swap(and, or));
        }
        numbers
    });
    found_in(BYTES[2], writer::choices, exchanged);
}

#[test]
fn and_masks_before_or_masks() {
    let apart = wrongly!(numbers: |record_type, numbers| {
        if record_type < 2 {
            return numbers;
        }
        let (and, or) = ([0, 1].map(|mask| numbers.iter().skip(mask).step_by(2))).into();
        and.chain(or).copied().collect()
    });
    found_in(BYTES[2], writer::choices, apart);
}

#[test]
fn both_split_counts_exchanged() {
    let exchanged = wrongly!(numbers: |record_type, mut numbers| {
        if record_type == 1 {
            numbers.swap(1, 2);
        }
        numbers
    });
    found_in(SHORTEST, writer::choices, exchanged);
}

#[test]
fn a_buffer_one_byte_too_short_accepted() {
    let short = wrongly!(room: |bytes, buffer| bytes <= buffer + 1);
    found_in(SHORTEST - 1, writer::choices, short);
}

#[test]
fn a_buffer_with_just_room_refused() {
    let more = wrongly!(room: |bytes, buffer| bytes < buffer);
    found_in(0, writer::choices, more);
}

#[test]
fn a_longer_buffer_refused() {
    let exact = wrongly!(room: |bytes, buffer| bytes == buffer);
    found_in(1, writer::choices, exact);
}

#[test]
fn room_for_all_three_asked() {
    let all = wrongly!(room: |_, buffer| MOST_BYTES <= buffer);
    let settings = found_in(0, writer::choices, all);
    assert_eq!(settings.flags, [0, 0, 0]);
}

/// As many bytes as there is room for.
#[test]
fn bytes_written_by_a_refused_call() {
    let early = wrongly!(put_refused: put_at_start);
    found_in(1, writer::choices, early);
}

#[test]
fn values_narrowed_to_a_byte() {
    let narrowed = wrongly!(in_range: |index, value| {
        value & 0xFF <= LIMITS[index]
    });
    found_in(0, writer::values, narrowed);
}

#[test]
fn values_narrowed_to_16_bits() {
    let narrowed = wrongly!(in_range: |index, value| {
        value & 0xFFFF <= LIMITS[index]
    });
    found_in(0, writer::values, narrowed);
}

#[test]
fn values_compared_as_signed() {
    let signed = wrongly!(in_range: |index, value| {
        LIMITS[index] == u32::MAX || value as i32 <= LIMITS[index] as i32
    });
    found_in(0, writer::values, signed);
}

/// The value of this index has a limit that is one too high, or one too low.
fn limit_off<const INDEX: usize, const HIGH: bool>() -> Pair {
    let off = wrongly!(in_range: |index, value| {
        let limit = LIMITS[index];
        value <= match (index, HIGH) {
            (index, true) if index == INDEX => limit + 1,
            (index, false) if index == INDEX => limit - 1,
            _ => limit,
        }
    });
    off()
}

/// Index, one too low, one too high.
type LimitOff = (usize, fn() -> Pair, fn() -> Pair);

macro_rules! limits_off {
    ($($index:literal)*) => {
        [$(($index, limit_off::<$index, false>, limit_off::<$index, true>)),*]
    };
}

/// All values that have a limit.
const LIMITS_OFF: [LimitOff; 11] = limits_off!(8 9 10 11 16 17 18 19 20 21 22);
/// The OR masks of Device Control and Link Control. One that is too large beside an AND mask that is not is senseless, so that no call
/// shows their own limit too high.
const OR_MASKS: [usize; 2] = [9, 11];

#[test]
fn every_limit_one_too_low() {
    for (index, low, _) in LIMITS_OFF {
        let settings = found_in(0, writer::choices, low);
        assert_eq!(settings.values[index], LIMITS[index]);
    }
}

#[test]
fn every_limit_one_too_high() {
    for (index, _, high) in LIMITS_OFF {
        if OR_MASKS.contains(&index) {
            writer::choices(high).unwrap();
            continue;
        }
        let settings = found_in(0, writer::choices, high);
        assert_eq!(settings.values[index], LIMITS[index] + 1);
    }
}

#[test]
fn device_control_and_link_control_without_limit() {
    let without = wrongly!(in_range: |index, value| {
        MASKS.contains(&index) || value <= LIMITS[index]
    });
    let settings = found_in(0, writer::choices, without);
    assert_eq!(settings.flags, [0, 0, 1]);
}

/// Two programs with the same wrong rules.
fn alike(make: fn() -> Pair) -> Pair {
    Pair {
        left: make().left,
        right: make().left,
    }
}

/// What was written is not read as what was asked for.
#[test]
fn revision_2_on_both_sides() {
    let both = || alike(wrongly!(revision: 2));
    found_in(SHORTEST, writer::choices, both);
}

/// What was read is not written again as the same bytes.
#[test]
fn types_in_falling_order_on_both_sides() {
    let both = || alike(wrongly!(order: [2, 1, 0]));
    let why = writer::again(both).expect_err("it is found");
    assert!(why.contains("written again"), "{why}");
}
