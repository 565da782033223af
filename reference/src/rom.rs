//! The images of an expansion ROM: document 02, a, by source document 000, section 5.1.

use crate::limits::MAX_ROM;
use crate::refusal::Refusal;

/// The bytes at the start of an image, section 5.1.1.
const ROM_SIGNATURE: &[u8; 2] = &[0x55, 0xAA];
/// Bytes of the header, which ends with the pointer to the structure, section 5.1.1.
const HEADER_BYTES: usize = 0x1A;
/// The letters at the start of a structure, section 5.1.2.
const STRUCTURE_SIGNATURE: &[u8; 4] = b"PCIR";
/// Bytes from a structure's start that must lie inside the ROM.
const STRUCTURE_BYTES: usize = 24;
/// Bytes of one unit of an image's length, section 5.1.2.
const UNIT_BYTES: usize = 512;
/// Bit 7 of the indicator, section 5.1.2: no image follows.
const LAST_IMAGE: u8 = 1 << 7;

/// A sound image, with what its structure says of it.
struct Image<'a> {
    /// The image whole, header included.
    bytes: &'a [u8],
    vendor: u16,
    device: u16,
    code_type: u8,
    /// Whether no image follows.
    last: bool,
}

/// Checks the chain of images to its last, then hands back the first with the asked fields.
#[inline(never)]
pub fn find_image(rom: &[u8], vendor: u32, device: u32, code_type: u32) -> Result<&[u8], Refusal> {
    if rom.len() > MAX_ROM {
        return Err(Refusal::Rom);
    }
    let mut found = None;
    let mut rest = rom;
    loop {
        let Some((image, after)) = take_image(rest) else {
            return Err(Refusal::Rom);
        };
        if found.is_none()
            && u32::from(image.vendor) == vendor
            && u32::from(image.device) == device
            && u32::from(image.code_type) == code_type
        {
            found = Some(image.bytes);
        }
        if image.last {
            return found.ok_or(Refusal::NoImage);
        }
        rest = after;
    }
}

/// Takes the first image off the rest of a ROM; `None` when it is broken.
#[inline]
fn take_image(rest: &[u8]) -> Option<(Image<'_>, &[u8])> {
    let header = rest.first_chunk::<HEADER_BYTES>()?;
    let [.., p0, p1] = *header;
    let pointer = usize::from(u16::from_le_bytes([p0, p1]));
    // The structure may lie behind its image, but not behind the ROM.
    let structure = rest.get(pointer..pointer + STRUCTURE_BYTES)?;
    let structure = structure.first_chunk::<STRUCTURE_BYTES>()?;
    if !header.starts_with(ROM_SIGNATURE) || !structure.starts_with(STRUCTURE_SIGNATURE) {
        return None;
    }
    let [_, _, _, _, v0, v1, d0, d1, ..] = *structure;
    let [.., l0, l1, _, _, code_type, indicator, _, _] = *structure;
    let units = usize::from(u16::from_le_bytes([l0, l1]));
    if units == 0 {
        return None;
    }
    let (bytes, after) = rest.split_at_checked(units * UNIT_BYTES)?;
    let image = Image {
        bytes,
        vendor: u16::from_le_bytes([v0, v1]),
        device: u16::from_le_bytes([d0, d1]),
        code_type,
        last: indicator & LAST_IMAGE != 0,
    };
    Some((image, after))
}
