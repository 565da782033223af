//! The search for a ROM image, which takes no table.
use crate::refusal::{Refusal, done};
use crate::sys;

/// Finds the first expansion ROM image with this vendor, device and code type (see [`code_type`](crate::code_type)) in a ROM of at most
/// [`MAX_ROM`](crate::MAX_ROM) bytes. They are compared with the fields of the image's own structure; a device list does not count. The
/// whole chain of images is checked before one is chosen. The image is a part of the ROM, its header included.
///
/// # Errors
///
/// [`Rom`](Refusal::Rom), then [`NoImage`](Refusal::NoImage).
///
/// ```
/// use slipwattle::code_type::{PC_AT, UEFI};
/// use slipwattle::{Refusal, find_image};
///
/// // One image of 512 bytes. Its structure starts at 0x1C: vendor 0x1234, device 0x5678.
/// let mut rom = [0; 512];
/// rom[..2].copy_from_slice(&[0x55, 0xAA]);
/// rom[0x18] = 0x1C;
/// rom[0x1C..0x24].copy_from_slice(b"PCIR\x34\x12\x78\x56");
/// rom[0x2C] = 1; // in units of 512 bytes
/// rom[0x30] = 3; // UEFI
/// rom[0x31] = 0x80; // the last image
/// assert_eq!(find_image(&rom, 0x1234, 0x5678, UEFI)?, rom);
/// assert_eq!(find_image(&rom, 0x1234, 0x5678, PC_AT), Err(Refusal::NoImage));
/// assert_eq!(find_image(&rom[..511], 0x1234, 0x5678, UEFI), Err(Refusal::Rom));
/// # Ok::<(), Refusal>(())
/// ```
pub fn find_image(rom: &[u8], vendor: u32, device: u32, code_type: u32) -> Result<&[u8], Refusal> {
    // SAFETY: the pointer leads to its length of bytes, which the call only reads.
    let found =
        unsafe { sys::slipwattle_find_image(rom.as_ptr(), rom.len(), vendor, device, code_type) };
    done(found.number)?;
    Ok(&rom[found.start..][..found.size])
}
