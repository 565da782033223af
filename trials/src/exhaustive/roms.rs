//! Expansion ROMs with one byte changed and cut, with every pointer, length and indicator, and around 16 MiB; the numbers that are asked
//! for.

use super::Bench;
use crate::call::FindImage;
use crate::roms::{self, IMAGE, Image, LAST, MOST_BYTES, STRUCTURE, UNIT};
use crate::service::Pair;

/// A chain of so many images of 512 bytes. Image `k` has code type `k`; each has its structure at another place.
fn images(count: u8) -> Vec<Image> {
    let image = |k: u8| Image {
        pointer: IMAGE.pointer + 57 * u16::from(k),
        code_type: k,
        ..IMAGE
    };
    roms::chain((0..count).map(image).collect())
}

/// A ROM of so many bytes with this image alone.
fn alone(bytes: usize, image: Image) -> Vec<u8> {
    let mut rom = vec![0; bytes];
    let indicator = LAST;
    Image { indicator, ..image }.write(&mut rom);
    rom
}

/// Asks for the fields of `IMAGE` with this code type.
fn check(bench: &mut Bench, rom: Vec<u8>, code_type: u8) -> Result<(), String> {
    let fields = Image { code_type, ..IMAGE }.fields();
    check_fields(bench, rom, fields)
}

fn check_fields(bench: &mut Bench, rom: Vec<u8>, fields: [u32; 3]) -> Result<(), String> {
    let [vendor, device, code_type] = fields;
    bench.check(FindImage {
        rom: rom.into(),
        vendor,
        device,
        code_type,
    })?;
    Ok(())
}

/// Asks for either of two images.
pub fn changed_bytes(make: fn() -> Pair) -> Result<u64, String> {
    let mut bench = Bench::new(make, Vec::new())?;
    let sound = roms::rom(&images(2));
    for index in 0..sound.len() {
        for value in 0..=u8::MAX {
            let mut changed = sound.clone();
            changed[index] = value;
            check(&mut bench, changed.clone(), 0)?;
            check(&mut bench, changed, 1)?;
        }
    }
    Ok(bench.count)
}

/// Asks for the first image, the last and none.
pub fn cut_roms(make: fn() -> Pair) -> Result<u64, String> {
    let mut bench = Bench::new(make, Vec::new())?;
    for count in 1..=6 {
        let sound = roms::rom(&images(count));
        for length in 0..=sound.len() {
            for code_type in [0, count - 1, count] {
                check(&mut bench, sound[..length].to_vec(), code_type)?;
            }
        }
    }
    Ok(bench.count)
}

/// An image of 4096 bytes, and one of 3584 behind another. As much of the structure as there is room for stands where the pointer leads.
pub fn pointers(make: fn() -> Pair) -> Result<u64, String> {
    let mut bench = Bench::new(make, Vec::new())?;
    for pointer in 0..=u16::MAX {
        let [image, behind] = [8, 7].map(|units| Image {
            pointer,
            units,
            ..IMAGE
        });
        check(&mut bench, alone(8 * UNIT, image), 0)?;
        let code_type = 1;
        let behind = Image {
            code_type,
            ..behind
        };
        let both = roms::chain(vec![IMAGE, behind]);
        check(&mut bench, roms::rom(&both), code_type)?;
    }
    Ok(bench.count)
}

/// In a ROM in which the structure that the last pointer leads to just has room, and in one a byte shorter.
pub fn far_pointers(make: fn() -> Pair) -> Result<u64, String> {
    let mut bench = Bench::new(make, Vec::new())?;
    let powers = (5..u16::BITS).map(|bit| 1u16 << bit);
    let beside = powers.flat_map(|power| [power - 1, power, power + 1]);
    let room = usize::from(u16::MAX) + STRUCTURE;
    for pointer in beside.chain([u16::MAX - 1, u16::MAX]) {
        for bytes in [room, room - 1] {
            check(&mut bench, alone(bytes, Image { pointer, ..IMAGE }), 0)?;
        }
    }
    Ok(bench.count)
}

/// The first of 8 images, which is the last or not.
pub fn lengths(make: fn() -> Pair) -> Result<u64, String> {
    let mut bench = Bench::new(make, Vec::new())?;
    let sound = roms::rom(&images(8));
    for units in 0..=u16::MAX {
        for indicator in [0, LAST] {
            let mut rom = sound.clone();
            let image = Image {
                units,
                indicator,
                ..IMAGE
            };
            image.write(&mut rom);
            check(&mut bench, rom, 0)?;
        }
    }
    Ok(bench.count)
}

/// Asks for the second of two images.
pub fn indicators(make: fn() -> Pair) -> Result<u64, String> {
    let mut bench = Bench::new(make, Vec::new())?;
    let sound = images(2);
    for first in 0..=u8::MAX {
        for second in 0..=u8::MAX {
            let mut images = sound.clone();
            (images[0].indicator, images[1].indicator) = (first, second);
            check(&mut bench, roms::rom(&images), 1)?;
        }
    }
    Ok(bench.count)
}

/// One image of about 16 MiB in a ROM of about 16 MiB; then as many images as there is room for, and one more.
pub fn sizes(make: fn() -> Pair) -> Result<u64, String> {
    let mut bench = Bench::new(make, Vec::new())?;
    let most = (MOST_BYTES / UNIT) as u16;
    for bytes in [MOST_BYTES - 1, MOST_BYTES, MOST_BYTES + 1] {
        for units in [most - 1, most, most + 1] {
            check(&mut bench, alone(bytes, Image { units, ..IMAGE }), 0)?;
        }
    }
    for count in [usize::from(most), usize::from(most) + 1] {
        check(&mut bench, roms::alike(count), 3)?;
    }
    Ok(bench.count)
}

/// The fields of each of three images, with one of them any byte, and with each bit of a DWORD flipped.
pub fn asked(make: fn() -> Pair) -> Result<u64, String> {
    let mut bench = Bench::new(make, Vec::new())?;
    let [zeros, ones] = [0, u16::MAX].map(|number| Image {
        vendor: number,
        device: number,
        code_type: number as u8,
        ..IMAGE
    });
    let images = roms::chain(vec![zeros, IMAGE, ones]);
    let rom = roms::rom(&images);
    for fields in images.iter().map(Image::fields) {
        for (index, field) in fields.into_iter().enumerate() {
            let flipped = (0..u32::BITS).map(|bit| field ^ (1 << bit));
            for value in (0..=0xFF).chain(flipped) {
                let mut changed = fields;
                changed[index] = value;
                check_fields(&mut bench, rom.clone(), changed)?;
            }
        }
    }
    Ok(bench.count)
}
