//! Setting records as the writer takes them: in range, at the edge of a range and beyond, with senseless masks, each present or absent.

use std::ops::Range;

use crate::blocks;
use crate::call::WriteRecords;
use crate::random::Random;

pub const TYPES: usize = 3;
/// The numbers after the revision, of all types.
pub const VALUES: usize = 23;
/// Which of them each type has: C has those of type 2 first.
pub const OF_TYPE: [Range<usize>; TYPES] = [16..20, 20..VALUES, MASKS];
/// The values of type 2.
pub const MASKS: Range<usize> = 0..16;
/// Bytes of a field before its numbers: tag, length, revision.
const BEFORE: usize = 7;
/// Bytes of all three records.
pub const MOST_BYTES: usize = TYPES * BEFORE + 4 * VALUES;
/// The greatest of each value.
pub const LIMITS: [u32; VALUES] = {
    let mut limits = [0; VALUES];
    let [pci, pci_x, express] = blocks::LIMITS;
    let (first, rest) = limits.split_at_mut(express.len());
    let (second, third) = rest.split_at_mut(pci.len());
    first.copy_from_slice(express);
    second.copy_from_slice(pci);
    third.copy_from_slice(pci_x);
    limits
};

/// Settings as C lays them out.
#[repr(C)]
#[derive(Clone, Copy, Debug, Default, PartialEq, Eq)]
pub struct Settings {
    /// The numbers after the revision, by `OF_TYPE`.
    pub values: [u32; VALUES],
    /// For each type 0 where its record is absent, else any number but 0.
    pub flags: [u8; TYPES],
}

impl Settings {
    /// Records of the types whose bit is set in the choice.
    pub fn chosen(choice: u8, values: [u32; VALUES]) -> Settings {
        Settings {
            values,
            flags: [0, 1, 2].map(|record_type| choice >> record_type & 1),
        }
    }

    pub fn is_present(&self, record_type: usize) -> bool {
        self.flags[record_type] != 0
    }

    /// The types whose records are present, rising.
    pub fn types(&self) -> impl Iterator<Item = usize> + use<> {
        let flags = self.flags;
        (0..TYPES).filter(move |record_type| flags[*record_type] != 0)
    }

    /// The numbers of a type after the revision.
    pub fn of_type(&self, record_type: usize) -> &[u32] {
        &self.values[OF_TYPE[record_type].clone()]
    }

    /// The bytes of the present records.
    pub fn bytes(&self) -> usize {
        self.types().map(field_bytes).sum()
    }

    /// Whether no value is past its limit, those of absent records included.
    pub fn is_within(&self) -> bool {
        let mut values = self.values.iter().zip(LIMITS);
        values.all(|(value, limit)| *value <= limit)
    }

    /// Whether one senseless pair is all that is wrong with the present records.
    pub fn is_senseless_alone(&self) -> bool {
        let mut mended = *self;
        blocks::mend(&mut mended.values[MASKS]);
        self.senseless_pairs() == 1 && self.is_present(2) && mended.as_read().is_within()
    }

    /// How many pairs are senseless, be their record present or absent.
    pub fn senseless_pairs(&self) -> usize {
        blocks::senseless_pairs(&self.values[MASKS])
    }

    /// Sets a value. With a mask goes the other of its pair, as far as it must for the pair to have a meaning.
    pub fn set(&mut self, index: usize, value: u32) {
        for (record_type, places) in OF_TYPE.into_iter().enumerate() {
            if places.contains(&index) {
                let numbers = &mut self.values[places.clone()];
                blocks::set_number(record_type, numbers, index - places.start, value);
            }
        }
    }

    /// What reading gives of these records: 1 for each that is present, and no values of those that are absent.
    pub fn as_read(&self) -> Settings {
        let mut read = Settings::default();
        for record_type in self.types() {
            read.put(record_type, self.of_type(record_type));
        }
        read
    }

    /// Adds a record with these numbers after the revision.
    pub fn put(&mut self, record_type: usize, numbers: &[u32]) {
        self.flags[record_type] = 1;
        self.values[OF_TYPE[record_type].clone()].copy_from_slice(numbers);
    }

    /// Flags, then values.
    pub fn numbers(&self) -> Vec<u64> {
        let flags = self.flags.iter().copied().map(u64::from);
        let values = self.values.iter().copied().map(u64::from);
        flags.chain(values).collect()
    }

    /// The settings with these numbers, which lose the bits for which they have no room.
    pub fn from_numbers(numbers: &[u64]) -> Settings {
        let mut settings = Settings::default();
        let (flags, values) = numbers.split_at(TYPES);
        for (flag, number) in settings.flags.iter_mut().zip(flags) {
            *flag = *number as u8;
        }
        for (value, number) in settings.values.iter_mut().zip(values) {
            *value = *number as u32;
        }
        settings
    }
}

/// Bytes of a record of this type, header included.
pub fn field_bytes(record_type: usize) -> usize {
    BEFORE + 4 * OF_TYPE[record_type].len()
}

/// The values that have a limit.
pub fn limited() -> impl Iterator<Item = usize> {
    (0..VALUES).filter(|index| LIMITS[*index] != u32::MAX)
}

/// Values within their limits, and masks that have a meaning.
pub fn values_within(random: &mut Random) -> [u32; VALUES] {
    let mut values = LIMITS.map(|limit| blocks::number_within(random, limit));
    blocks::give_meaning(random, &mut values[MASKS]);
    values
}

/// A call of the writer. Two in five are done; of the others some have a value too large or a senseless pair, some a buffer too short, and
/// some both.
pub fn any_write(random: &mut Random) -> WriteRecords {
    let mut settings = Settings {
        values: values_within(random),
        flags: [(); TYPES].map(|()| any_flag(random)),
    };
    if random.below(5) < 3 {
        spoil(random, &mut settings);
    }
    let length = near(random, settings.bytes());
    WriteRecords {
        settings,
        buffer: random.bytes(length).into(),
    }
}

fn any_flag(random: &mut Random) -> u8 {
    let any = random.byte();
    random.pick(&[0, 0, 0, 1, 1, 1, 2, 0x80, 0xFF, any])
}

/// Puts a value or two past the limit; makes a pair senseless, its record present or absent; or puts anything into all values of a type,
/// whose record then is absent, as a rule.
fn spoil(random: &mut Random, settings: &mut Settings) {
    match random.below(8) {
        0 | 1 => {
            let record_type = random.below(TYPES);
            let values = &mut settings.values[OF_TYPE[record_type].clone()];
            values.iter_mut().for_each(|value| *value = random.word());
            settings.flags[record_type] &= random.pick(&[0, 0, 0xFF]);
        }
        2..5 => {
            blocks::make_senseless(random, &mut settings.values[MASKS]);
            settings.flags[2] = random.pick(&[0, 1]);
        }
        _ => {
            let limited: Vec<usize> = limited().collect();
            for _ in 0..random.pick(&[1, 1, 1, 2]) {
                let index = random.pick(&limited);
                settings.set(index, beyond(random, LIMITS[index]));
            }
        }
    }
}

/// A number past the limit by a little, or one that is not past it once its upper bits are lost.
fn beyond(random: &mut Random, limit: u32) -> u32 {
    let past = limit + 1;
    let low = random.word() & limit;
    random.pick(&[
        past,
        past,
        past + 1,
        past | low,
        past.max(0x100) | low,
        0x1_0000 | low,
        0x8000_0000 | low,
        u32::MAX,
    ])
}

/// The length, one around it, none, that of all records or a long one.
fn near(random: &mut Random, length: usize) -> usize {
    let shorter = random.below(length + 1);
    let longer = random.between(length, length + 20);
    match random.below(8) {
        0 | 1 => length.saturating_sub(1),
        2 => random.pick(&[0, shorter, length.saturating_sub(4)]),
        3 => random.pick(&[length + 1, longer]),
        4 => random.pick(&[MOST_BYTES, MOST_BYTES + 1, 1024]),
        _ => length,
    }
}
