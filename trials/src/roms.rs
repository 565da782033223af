//! Expansion ROMs: sound chains of images, and ones that break a rule or stand at its edge.

use crate::call::FindImage;
use crate::random::Random;

pub const MOST_BYTES: usize = 1 << 24;
/// Bytes of one unit of an image's length.
pub const UNIT: usize = 512;
/// Bytes of an image's header, which ends with the pointer to the structure.
pub const HEADER: usize = POINTER + 2;
/// Bytes from a structure's start that must lie inside the ROM.
pub const STRUCTURE: usize = 24;
/// What an image starts with.
pub const SIGNATURE: [u8; 2] = [0x55, 0xAA];
/// Bit 7 of the indicator: no image follows.
pub const LAST: u8 = 0x80;

/// Where an image has its pointer.
const POINTER: usize = 0x18;
/// Where a structure has the pointer to a device list, the image's length and the indicator.
pub const DEVICE_LIST: usize = 0x08;
const LENGTH: usize = 0x10;
const INDICATOR: usize = 0x15;

/// Small sets, so that images match, match again and miss.
const VENDORS: [u16; 4] = [0x8086, 0x8086, 0x8086, 0x1AF4];
const DEVICES: [u16; 4] = [0x1533, 0x1533, 0x1533, 0x10D3];
const CODE_TYPES: [u8; 4] = [0, 3, 3, 1];

/// An image of a ROM, by its header and its structure.
#[derive(Clone, Copy, Debug, PartialEq, Eq)]
pub struct Image {
    /// The byte of the ROM where it starts.
    pub start: usize,
    /// Where its structure starts, counted from its own start.
    pub pointer: u16,
    pub vendor: u16,
    pub device: u16,
    /// Its length, in units of 512 bytes.
    pub units: u16,
    pub code_type: u8,
    pub indicator: u8,
}

impl Image {
    /// The image that starts at this byte, if both its signatures stand there.
    pub fn read(rom: &[u8], start: usize) -> Option<Image> {
        let half = |bytes: &[u8], at| u16::from_le_bytes([bytes[at], bytes[at + 1]]);
        let rest = rom.get(start..)?;
        let header = rest.get(..HEADER)?;
        let pointer = half(header, POINTER);
        let structure = rest.get(usize::from(pointer)..)?.get(..STRUCTURE)?;
        let signed = header.starts_with(&SIGNATURE) && structure.starts_with(b"PCIR");
        signed.then(|| Image {
            start,
            pointer,
            vendor: half(structure, 4),
            device: half(structure, 6),
            units: half(structure, LENGTH),
            code_type: structure[0x14],
            indicator: structure[INDICATOR],
        })
    }

    /// Puts structure and header in, as far as the ROM has bytes; where both lie, the header.
    pub fn write(&self, rom: &mut [u8]) {
        let structure = self.structure();
        put(rom, structure, b"PCIR");
        for (at, number) in [(4, self.vendor), (6, self.device), (LENGTH, self.units)] {
            put(rom, structure + at, &number.to_le_bytes());
        }
        put(rom, structure + 0x14, &[self.code_type, self.indicator]);
        put(rom, self.start, &SIGNATURE);
        put(rom, self.start + POINTER, &self.pointer.to_le_bytes());
    }

    /// The byte of the ROM where its structure starts.
    pub fn structure(&self) -> usize {
        self.start + usize::from(self.pointer)
    }

    /// The byte of the ROM after its last.
    pub fn end(&self) -> usize {
        self.start + UNIT * usize::from(self.units)
    }

    /// Vendor, device and code type.
    pub fn fields(&self) -> [u32; 3] {
        [
            self.vendor.into(),
            self.device.into(),
            self.code_type.into(),
        ]
    }
}

/// An image of 512 bytes at the start of a ROM.
pub const IMAGE: Image = Image {
    start: 0,
    pointer: 0x1C,
    vendor: VENDORS[0],
    device: DEVICES[0],
    units: 1,
    code_type: 0,
    indicator: 0,
};

/// Puts bytes at a place, as far as there is room.
pub fn put(rom: &mut [u8], at: usize, bytes: &[u8]) {
    let room = rom.get_mut(at..).unwrap_or_default();
    for (place, byte) in room.iter_mut().zip(bytes) {
        *place = *byte;
    }
}

/// The images of a chain to its last, or as far as they can be told apart.
pub fn images(rom: &[u8]) -> Vec<Image> {
    let mut images = Vec::new();
    let mut start = 0;
    while let Some(image) = Image::read(rom, start) {
        if image.units == 0 || image.end() > rom.len() {
            break;
        }
        images.push(image);
        if image.indicator & LAST != 0 {
            break;
        }
        start = image.end();
    }
    images
}

/// The images one behind the other, the last of them marked as such.
pub fn chain(mut images: Vec<Image>) -> Vec<Image> {
    let mut start = 0;
    for image in &mut images {
        image.start = start;
        image.indicator &= !LAST;
        start = image.end();
    }
    if let Some(last) = images.last_mut() {
        last.indicator |= LAST;
    }
    images
}

/// The ROM of a chain, with zeros around headers and structures.
pub fn rom(images: &[Image]) -> Vec<u8> {
    let mut rom = vec![0; images.last().map_or(0, Image::end)];
    for image in images {
        image.write(&mut rom);
    }
    rom
}

/// The ROM of so many images of 512 bytes; the last alone has code type 3.
pub fn alike(count: usize) -> Vec<u8> {
    let mut images = chain(vec![IMAGE; count]);
    if let Some(last) = images.last_mut() {
        last.code_type = 3;
    }
    rom(&images)
}

/// A search in a ROM. A third of the ROMs are sound, as a rule; the others have one thing that is wrong or near.
pub fn any_search(random: &mut Random) -> FindImage {
    let count = random.pick(&[1, 1, 2, 2, 2, 3, 3, 4, 5, 6]);
    let images = chain((0..count).map(|_| any_image(random)).collect());
    let mut rom = any_rom(random, &images);
    if !random.one_in(3) {
        spoil(random, &mut rom, &images);
    }
    let [vendor, device, code_type] = asked(random, &images);
    FindImage {
        rom: rom.into(),
        vendor,
        device,
        code_type,
    }
}

fn any_image(random: &mut Random) -> Image {
    let units = random.pick(&[1, 1, 1, 1, 2, 2, 3, 4]);
    Image {
        start: 0,
        pointer: any_pointer(random, UNIT * usize::from(units)),
        vendor: random.pick(&VENDORS),
        device: random.pick(&DEVICES),
        units,
        code_type: random.pick(&CODE_TYPES),
        indicator: random.byte() & random.pick(&[0, 0, 0x7F]),
    }
}

/// Behind the header, in the header, at the end of an image of so many bytes or across it, anywhere inside, or outside.
fn any_pointer(random: &mut Random, bytes: usize) -> u16 {
    let end = bytes - STRUCTURE;
    let inside = random.between(HEADER, end);
    let across = random.between(end + 1, end + 2);
    let outside = random.between(bytes + HEADER, bytes + UNIT - STRUCTURE);
    random.pick(&[
        HEADER, 0x1C, 0x1C, 0x40, 2, end, across, inside, inside, outside,
    ]) as u16
}

/// The ROM of a chain: around headers and structures zeros, ones or anything, and sometimes more bytes after the last image.
fn any_rom(random: &mut Random, images: &[Image]) -> Vec<u8> {
    let structures = images.iter().map(|image| image.structure() + STRUCTURE);
    let ends = images.iter().map(Image::end).chain(structures);
    let length = ends.max().unwrap_or(0) + random.pick(&[0, 0, 0, 0, 1, 23, 600]);
    let mut rom = match random.below(4) {
        0 => random.bytes(length),
        1 => vec![0xFF; length],
        _ => vec![0; length],
    };
    for image in images {
        image.write(&mut rom);
        if random.one_in(2) {
            write_device_list(&mut rom, image.structure());
        }
    }
    rom
}

/// Puts a list of all devices behind a structure, and a pointer to the list into it.
fn write_device_list(rom: &mut [u8], structure: usize) {
    put(rom, structure + DEVICE_LIST, &[STRUCTURE as u8, 0]);
    let devices = DEVICES.map(u16::to_le_bytes);
    put(rom, structure + STRUCTURE, devices.as_flattened());
    put(rom, structure + STRUCTURE + 2 * DEVICES.len(), &[0, 0]);
}

/// The fields of an image or, once in four times, those of some other, or with one number widened.
fn asked(random: &mut Random, images: &[Image]) -> [u32; 3] {
    let mut asked = random.pick(images).fields();
    match random.below(8) {
        0 => asked = any_image(random).fields(),
        1 => {
            let number = &mut asked[random.below(3)];
            let widened = [0x100, 0x1_0000, 0x8000_0000, u32::MAX];
            *number |= random.pick(&widened);
        }
        _ => {}
    }
    asked
}

/// Makes one thing wrong, or stand at the edge of a rule.
fn spoil(random: &mut Random, rom: &mut Vec<u8>, images: &[Image]) {
    let image = random.pick(images);
    let structure = image.structure();
    let near = random.below(HEADER);
    let in_structure = structure + random.below(STRUCTURE);
    let anywhere = random.below(rom.len());
    match random.below(8) {
        0 => cut(random, rom, &image),
        1 => {
            let more = image.units.wrapping_add_signed(random.pick(&[1, -1, 256]));
            let units = random.pick(&[0, 0, more, more, u16::MAX]);
            put(rom, structure + LENGTH, &units.to_le_bytes());
        }
        2 => rom[structure + INDICATOR] ^= LAST,
        3 => move_structure(random, rom, image),
        4 => redirect(random, rom, &image, images),
        5 => rom[image.start + near] = random.byte(),
        6 => rom[in_structure] ^= 1 << random.below(8),
        _ => rom[anywhere] = random.byte(),
    }
}

/// Leaves nothing, what stands before the image, or all but a byte of something.
fn cut(random: &mut Random, rom: &mut Vec<u8>, image: &Image) {
    let structure_end = image.structure() + STRUCTURE;
    let ends = [image.start + HEADER, structure_end, image.end(), rom.len()];
    let end = random.pick(&ends) - 1;
    let anywhere = random.below(rom.len());
    rom.truncate(random.pick(&[0, image.start, end, end, end, anywhere]));
}

/// Puts the image's structure where it ends with the ROM, or a byte before or past that.
fn move_structure(random: &mut Random, rom: &mut [u8], image: Image) {
    let at_end = rom.len() - STRUCTURE - image.start;
    let pointer = at_end.saturating_add_signed(random.pick(&[-1, 0, 1, 2, 3]));
    let pointer = pointer as u16;
    Image { pointer, ..image }.write(rom);
}

/// Lets the pointer lead to another image's structure, or a byte beside its own.
fn redirect(random: &mut Random, rom: &mut [u8], image: &Image, images: &[Image]) {
    let other = random.pick(images).structure().wrapping_sub(image.start) as u16;
    let beside = image.pointer.wrapping_add_signed(random.pick(&[1, -1]));
    let pointer = random.pick(&[other, beside]);
    put(rom, image.start + POINTER, &pointer.to_le_bytes());
}
