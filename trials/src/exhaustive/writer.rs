//! Records written: every choice of them, every buffer around what they need, every value around its limit; and blocks read and written
//! again.

use super::Bench;
use crate::blocks;
use crate::call::{Call, WriteRecords};
use crate::given::Given;
use crate::random::Random;
use crate::service::Pair;
use crate::settings::{self, LIMITS, MASKS, MOST_BYTES, Settings, TYPES, VALUES};

/// The choice of all records, with a bit for each type.
const ALL: u8 = 0b111;
const LONGEST: usize = 120;
const RISING: [usize; TYPES] = [0, 1, 2];
/// Blocks of random values for each choice or order.
const BLOCKS: usize = 1000;

fn write(settings: Settings, room: usize) -> WriteRecords {
    WriteRecords {
        settings,
        buffer: vec![0xEE; room].into(),
    }
}

/// Values in range, at every limit, with one that has a limit one past it, and with a senseless pair of each register.
fn value_sets() -> Vec<[u32; VALUES]> {
    let within = settings::values_within(&mut Random::new(1));
    let past = settings::limited().map(|index| {
        let mut settings = Settings::chosen(ALL, within);
        settings.set(index, LIMITS[index] + 1);
        settings.values
    });
    let senseless = MASKS.step_by(2).map(|index| {
        let mut values = within;
        [values[index], values[index + 1]] = [0, 1];
        values
    });
    let sets = [within, LIMITS].into_iter();
    sets.chain(past).chain(senseless).collect()
}

pub fn choices(make: fn() -> Pair) -> Result<u64, String> {
    let mut bench = Bench::new(make, Vec::new())?;
    for values in value_sets() {
        for choice in 0..=ALL {
            for room in 0..=LONGEST {
                bench.check(write(Settings::chosen(choice, values), room))?;
            }
        }
    }
    Ok(bench.count)
}

/// The buffer has just room for all records.
pub fn flags(make: fn() -> Pair) -> Result<u64, String> {
    let mut bench = Bench::new(make, Vec::new())?;
    for others in [0, ALL] {
        let settings = Settings::chosen(others, LIMITS);
        for record_type in 0..TYPES {
            for flag in 0..=u8::MAX {
                let mut settings = settings;
                settings.flags[record_type] = flag;
                bench.check(write(settings, MOST_BYTES))?;
            }
        }
    }
    Ok(bench.count)
}

/// Around each limit all records are present, and no pair is senseless; the flipped bits are written in every choice.
pub fn values(make: fn() -> Pair) -> Result<u64, String> {
    let mut bench = Bench::new(make, Vec::new())?;
    let within = settings::values_within(&mut Random::new(2));
    for index in settings::limited() {
        for value in 0..=LIMITS[index] + 2 {
            let mut settings = Settings::chosen(ALL, within);
            settings.set(index, value);
            bench.check(write(settings, MOST_BYTES))?;
        }
    }
    for index in 0..VALUES {
        for bit in 0..u32::BITS {
            for choice in 0..=ALL {
                let mut settings = Settings::chosen(choice, within);
                settings.values[index] ^= 1 << bit;
                bench.check(write(settings, MOST_BYTES))?;
            }
        }
    }
    Ok(bench.count)
}

/// Blocks that hold only records in rising order. What is written again is the block itself.
pub fn again(make: fn() -> Pair) -> Result<u64, String> {
    let mut bench = Bench::new(make, Vec::new())?;
    let random = &mut Random::new(3);
    for choice in 0..=ALL {
        for _ in 0..BLOCKS {
            let asked = Settings::chosen(choice, settings::values_within(random)).as_read();
            check_again(&mut bench, &laid_down(&asked, RISING), &asked)?;
        }
    }
    Ok(bench.count)
}

/// The same records in every order, and blocks of records in any order among fields that are skipped.
pub fn orders(make: fn() -> Pair) -> Result<u64, String> {
    let mut bench = Bench::new(make, Vec::new())?;
    let random = &mut Random::new(4);
    let orders = [[0, 2, 1], [1, 0, 2], [1, 2, 0], [2, 0, 1], [2, 1, 0]];
    for choice in 0..=ALL {
        for _ in 0..BLOCKS {
            let asked = Settings::chosen(choice, settings::values_within(random)).as_read();
            for order in orders {
                check_again(&mut bench, &laid_down(&asked, order), &asked)?;
            }
            let types: Vec<u8> = asked.types().map(|record_type| record_type as u8).collect();
            written_again(&mut bench, &blocks::sound_block(random, &types))?;
        }
    }
    Ok(bench.count)
}

pub fn changed_bytes(make: fn() -> Pair) -> Result<u64, String> {
    let mut bench = Bench::new(make, Vec::new())?;
    let values = settings::values_within(&mut Random::new(5));
    let sound = laid_down(&Settings::chosen(ALL, values), RISING);
    for index in 0..sound.len() {
        for value in 0..=u8::MAX {
            let mut changed = sound.clone();
            changed[index] = value;
            written_again(&mut bench, &changed)?;
        }
    }
    Ok(bench.count)
}

/// The fields of the present records, in an order.
fn laid_down(settings: &Settings, order: [usize; TYPES]) -> Vec<u8> {
    let present = order.into_iter().filter(|k| settings.is_present(*k));
    let field = |k: usize| blocks::numbers_field(k as u8, 1, settings.of_type(k));
    present.flat_map(field).collect()
}

/// A block is read as what was asked for, and written again by rising type.
fn check_again(bench: &mut Bench, block: &[u8], asked: &Settings) -> Result<(), String> {
    let again = written_again(bench, block)?;
    if again == Some((*asked, laid_down(asked, RISING))) {
        return Ok(());
    }
    Err(format!(
        "{block:x?}\nis read and written again as\n{again:x?}"
    ))
}

/// What is read of a block, and its bytes when it is written again; nothing if the block is refused.
fn written_again(bench: &mut Bench, block: &[u8]) -> Result<Option<(Settings, Vec<u8>)>, String> {
    let Ok(settings) = bench.read(block)? else {
        return Ok(None);
    };
    let call = write(settings, settings.bytes()).into();
    match bench.made(&call)? {
        (Call::WriteRecords(left), Given { number: 0, .. }) => {
            Ok(Some((settings, left.buffer.lent().to_vec())))
        }
        (_, given) => Err(format!(
            "{block:x?}\nis read, and written again with {given:?}"
        )),
    }
}
