//! The shortest list that shows a difference.

use std::iter;
use std::ops::Range;
use std::rc::Rc;

use crate::blocks::{self, REGISTERS};
use crate::call::{Call, Start, WriteRecords};
use crate::editions::{OLD_EDITION, known_control};
use crate::mcfg;
use crate::part::Part;
use crate::roms::{self, HEADER, Image, LAST, UNIT};
use crate::settings::{MASKS, TYPES};

/// Smaller is simpler: calls, then lent numbers, then numbers that are not 0, then the sum of them.
type Size = (usize, usize, usize, u128);

/// Lists that are tried at most, so that a difference is told in the end.
const MOST_TRIES: usize = 200_000;
/// A list that lends more is told as it is.
const MOST_LENT: usize = 1 << 20;

fn size(list: &[Call]) -> Size {
    let (mut lent, mut not_zero, mut sum) = (0, 0, 0);
    for call in list {
        for (_, part) in call.clone().parts() {
            let numbers = part.numbers();
            lent += if part.is_buffer() { numbers.len() } else { 0 };
            not_zero += numbers.iter().filter(|number| **number != 0).count();
            sum += numbers.into_iter().map(u128::from).sum::<u128>();
        }
    }
    (list.len(), lent, not_zero, sum)
}

/// Takes calls, rows, entries and bytes away and makes numbers smaller, as long as the list still differs.
pub fn shrink(list: &[Call], differs: &mut dyn FnMut(&[Call]) -> bool) -> Vec<Call> {
    let mut best = list.to_vec();
    let (_, lent, _, _) = size(list);
    if lent > MOST_LENT {
        return best;
    }
    let mut tries = 0;
    let differs = &mut |list: &[Call]| {
        tries += 1;
        tries <= MOST_TRIES && differs(list)
    };
    while let Some(simpler) = first_simpler(&best, differs) {
        best = simpler;
    }
    best
}

fn first_simpler(list: &[Call], differs: &mut dyn FnMut(&[Call]) -> bool) -> Option<Vec<Call>> {
    let now = size(list);
    let mut good = |simpler: &Vec<Call>| size(simpler) < now && differs(simpler);
    let without_call = (0..list.len()).rev().map(|index| without(list, index));
    let without_osc = (0..list.len()).filter_map(|index| without_osc(list, index));
    let without_row = (0..row_count(list)).rev().map(|row| without_row(list, row));
    let mut shorter = without_call.chain(without_osc).chain(without_row);
    if let Some(simpler) = shorter.find(&mut good) {
        return Some(simpler);
    }
    (0..list.len()).find_map(|index| {
        let simpler = simpler_calls(&list[index]);
        simpler.map(|call| with(list, index, call)).find(&mut good)
    })
}

fn without(list: &[Call], index: usize) -> Vec<Call> {
    let mut shorter = list.to_vec();
    shorter.remove(index);
    shorter
}

/// The list without an _OSC call, whose support bits the next one on its bridge declares.
fn without_osc(list: &[Call], index: usize) -> Option<Vec<Call>> {
    let mut shorter = list.to_vec();
    let Call::Osc(earlier) = shorter.remove(index) else {
        return None;
    };
    let mut later = shorter[index..].iter_mut();
    let next = later.find_map(|call| match call {
        Call::Osc(osc) if osc.bridge == earlier.bridge => Some(osc),
        _ => None,
    })?;
    let support = next.capabilities.lent_mut().get_mut(4..8)?;
    let told = earlier.capabilities.lent().iter().skip(4);
    for (byte, told) in support.iter_mut().zip(told) {
        *byte |= told;
    }
    Some(shorter)
}

fn with(list: &[Call], index: usize, call: Call) -> Vec<Call> {
    let mut changed = list.to_vec();
    changed[index] = call;
    changed
}

fn row_count(list: &[Call]) -> usize {
    match list.first() {
        Some(Call::Start(start)) => start.rows.lent().len(),
        _ => 0,
    }
}

/// The list without one row of its start; the bridges after it have one number less.
fn without_row(list: &[Call], row: usize) -> Vec<Call> {
    let mut changed = list.to_vec();
    for call in &mut changed {
        for part in call.parts() {
            match part {
                ("rows", Part::Rows(rows)) => {
                    let mut fewer = rows.lent().to_vec();
                    fewer.remove(row);
                    rows.replace(&fewer);
                }
                ("bridge", Part::Byte(bridge)) if usize::from(*bridge) > row => *bridge -= 1,
                _ => {}
            }
        }
    }
    changed
}

/// Calls like this one with one argument simpler, starts with one row of the old edition or with one entry less, and writes of other
/// records or of fewer masks. Each is made when it is asked for: a long buffer has many.
fn simpler_calls(call: &Call) -> impl Iterator<Item = Call> {
    let whole: Box<dyn Iterator<Item = Call>> = match call {
        Call::Start(start) => Box::new(old_rows(start).chain(simpler_tables(start))),
        Call::WriteRecords(write) => Box::new(fewer_records(write).chain(fewer_masks(write))),
        _ => Box::new(iter::empty()),
    };
    let parts = 0..call.clone().parts().len();
    let parts = parts.flat_map(|index| simpler_part(call, index));
    whole.chain(parts)
}

/// Starts with one row made one of the old edition, which permits no bit that it does not know.
fn old_rows(start: &Start) -> impl Iterator<Item = Call> {
    let rows = 0..start.rows.lent().len();
    rows.map(|index| {
        let mut changed = start.clone();
        let row = &mut changed.rows.lent_mut()[index];
        row.edition = OLD_EDITION;
        row.permitted &= known_control(OLD_EDITION);
        changed.into()
    })
}

/// Starts from an MCFG table with one entry less, with zeros in a run or with one byte smaller, mended.
fn simpler_tables(start: &Start) -> impl Iterator<Item = Call> {
    let table = start.mcfg.lent();
    let entries = (mcfg::HEADER..table.len()).step_by(mcfg::ENTRY);
    let fewer = entries.map(|entry| {
        let mut fewer = table.to_vec();
        fewer.drain(entry..(entry + mcfg::ENTRY).min(table.len()));
        mcfg::mend(&mut fewer);
        fewer
    });
    let (fixed, free) = table.split_at(table.len().min(10));
    let free: Rc<[u64]> = free.iter().copied().map(u64::from).collect();
    let changed = zero_runs(free.clone()).chain(smaller_numbers(free));
    let mended = changed.map(|changed| {
        let changed = changed.iter().map(|number| *number as u8);
        let mut bytes: Vec<u8> = fixed.iter().copied().chain(changed).collect();
        mcfg::mend_checksum(&mut bytes);
        bytes
    });
    fewer.chain(mended).map(|table| {
        let mut changed = start.clone();
        changed.mcfg.replace(&table);
        changed.into()
    })
}

/// The writer's call with one record less, or with one of another type in its place.
fn fewer_records(write: &WriteRecords) -> impl Iterator<Item = Call> {
    let settings = write.settings;
    settings.types().flat_map(move |record_type| {
        let absent = (0..TYPES).filter(move |other| !settings.is_present(*other));
        let instead = iter::once(None).chain(absent.map(Some));
        instead.map(move |other| without_record(write, record_type, other))
    })
}

/// The buffer is shorter by as many bytes as the records.
fn without_record(write: &WriteRecords, record_type: usize, instead: Option<usize>) -> Call {
    let mut changed = write.clone();
    let settings = &mut changed.settings;
    settings.flags[record_type] = 0;
    if let Some(other) = instead {
        settings.flags[other] = 1;
    }
    let less = write.settings.bytes().saturating_sub(settings.bytes());
    let buffer = write.buffer.lent();
    let room = buffer.len().saturating_sub(less);
    changed.buffer.replace(&buffer[..room]);
    changed.into()
}

/// The writer's call with zeros for the masks of one register. By itself an AND mask goes no further than its OR mask.
fn fewer_masks(write: &WriteRecords) -> impl Iterator<Item = Call> {
    (0..REGISTERS).map(|register| {
        let mut changed = write.clone();
        without_masks(&mut changed.settings.values[MASKS], register);
        changed.into()
    })
}

fn without_masks(masks: &mut [u32], register: usize) {
    masks[2 * register..][..2].fill(0);
}

/// Smaller numbers to try instead of this one: 0, then it less a half, a quarter and so on down to it less 1, then it without one of its
/// bits, the highest first.
fn smaller(number: u64) -> impl Iterator<Item = u64> {
    let parts = (0..u64::BITS).map(move |bits| number >> bits);
    let less = parts
        .take_while(|part| *part > 0)
        .map(move |part| number - part);
    let bits = (0..u64::BITS).rev().map(|bit| 1 << bit);
    let without = bits
        .filter(move |bit| number & bit != 0)
        .map(move |bit| number & !bit);
    less.chain(without)
}

fn shorter(numbers: Rc<[u64]>) -> impl Iterator<Item = Vec<u64>> {
    let lengths = [0, numbers.len() / 2, numbers.len().saturating_sub(1)];
    let lengths = lengths.into_iter();
    lengths.map(move |length| numbers[..length].to_vec())
}

/// Runs of so many things: all of them, a half, and so on down to the shortest.
fn runs(length: usize, shortest: usize) -> impl Iterator<Item = Range<usize>> {
    let halves = (0..usize::BITS).map(move |bits| length >> bits);
    let sizes = halves.take_while(move |size| *size >= shortest);
    sizes.flat_map(move |size| {
        let starts = (0..length).step_by(size);
        starts.map(move |start| start..length.min(start + size))
    })
}

/// Lists with zeros in a run of 2 numbers or more.
fn zero_runs(numbers: Rc<[u64]>) -> impl Iterator<Item = Vec<u64>> {
    runs(numbers.len(), 2).map(move |run| {
        let mut changed = numbers.to_vec();
        changed[run].fill(0);
        changed
    })
}

/// Lists with one number smaller.
fn smaller_numbers(numbers: Rc<[u64]>) -> impl Iterator<Item = Vec<u64>> {
    let indexes = 0..numbers.len();
    indexes.flat_map(move |index| {
        let numbers = numbers.clone();
        smaller(numbers[index]).map(move |number| {
            let mut changed = numbers.to_vec();
            changed[index] = number;
            changed
        })
    })
}

/// Record blocks with a run of fields less, and with zeros for the masks of one register.
fn simpler_blocks(block: Rc<[u64]>) -> impl Iterator<Item = Vec<u64>> {
    let bytes: Vec<u8> = block.iter().map(|number| *number as u8).collect();
    let fields = blocks::fields(&bytes);
    let fewer = runs(fields.len(), 1).map(move |run| {
        let (first, last) = (&fields[run.start], &fields[run.end - 1]);
        [&block[..first.start], &block[last.end..]].concat()
    });
    let plainer = (0..REGISTERS).map(move |register| {
        let mut changed = bytes.clone();
        blocks::each_express(&mut changed, |_, masks| without_masks(masks, register));
        changed.into_iter().map(u64::from).collect()
    });
    fewer.chain(plainer)
}

/// ROMs with one image less, with one shorter, or with one made plain.
fn simpler_roms(rom: Rc<[u64]>) -> impl Iterator<Item = Vec<u64>> {
    let bytes: Vec<u8> = rom.iter().map(|number| *number as u8).collect();
    let images = roms::images(&bytes);
    let simpler = (0..images.len()).flat_map(move |index| {
        [
            without_image(&bytes, &images, index),
            with_plain_image(&bytes, images[index]),
            with_shorter_image(&bytes, images[index]),
        ]
    });
    simpler.map(|rom| rom.into_iter().map(u64::from).collect())
}

/// The ROM without an image. Where it was the last, now the one before it is.
fn without_image(rom: &[u8], images: &[Image], index: usize) -> Vec<u8> {
    let image = images[index];
    let mut fewer = [&rom[..image.start], &rom[image.end()..]].concat();
    if let Some(before) = images[..index].last() {
        let indicator = before.indicator | (image.indicator & LAST);
        let before = Image {
            indicator,
            ..*before
        };
        before.write(&mut fewer);
    }
    fewer
}

/// The ROM with an image of 512 bytes whose structure stands behind its header, and zeros in the rest.
fn with_plain_image(rom: &[u8], image: Image) -> Vec<u8> {
    let mut plain = [&rom[..image.start], &[0; UNIT], &rom[image.end()..]].concat();
    let image = Image {
        pointer: HEADER as u16,
        units: 1,
        ..image
    };
    image.write(&mut plain);
    plain
}

/// The ROM with 512 bytes less behind the header of an image. A structure beyond them keeps its distance to the image's end.
fn with_shorter_image(rom: &[u8], image: Image) -> Vec<u8> {
    let behind = image.start + HEADER;
    let mut shorter = [&rom[..behind], &rom[rom.len().min(behind + UNIT)..]].concat();
    let pointer = match usize::from(image.pointer) {
        far if far >= HEADER + UNIT => far - UNIT,
        near => near,
    };
    let image = Image {
        pointer: pointer as u16,
        units: image.units - 1,
        ..image
    };
    image.write(&mut shorter);
    shorter
}

/// Calls like this one with the argument of this index simpler.
fn simpler_part(call: &Call, index: usize) -> impl Iterator<Item = Call> {
    let mut original = call.clone();
    let (name, part) = &original.parts()[index];
    let numbers: Rc<[u64]> = part.numbers().into();
    let fewer: Box<dyn Iterator<Item = Vec<u64>>> = match *name {
        "slot" | "bridge_block" => Box::new(simpler_blocks(numbers.clone())),
        "rom" => Box::new(simpler_roms(numbers.clone())),
        _ => Box::new(iter::empty()),
    };
    let is_buffer = part.is_buffer();
    let shorter = is_buffer.then(|| shorter(numbers.clone()).chain(zero_runs(numbers.clone())));
    let simpler = fewer.chain(shorter.into_iter().flatten());
    simpler.chain(smaller_numbers(numbers)).map(move |numbers| {
        let mut changed = call.clone();
        changed.parts()[index].1.set_numbers(&numbers);
        changed
    })
}
