//! The images of an expansion ROM: document 02, a.

use crate::build::*;
use reference::{Refusal, find_image};

/// Finds the image with the fields of `LAST`.
fn find(rom: &[u8]) -> Result<&[u8], Refusal> {
    find_image(rom, 0x8086, 0x1234, 3)
}

/// Whether the ROM is sound: it then has no image with fields that are too large.
fn sound(rom: &[u8]) -> bool {
    let refused = find_image(rom, 0x1_0000, 0x1_0000, 0x100).unwrap_err();
    let sound = refused == Refusal::NoImage;
    assert!(sound || refused == Refusal::Rom);
    assert_eq!(find(rom) != Err(Refusal::Rom), sound);
    sound
}

/// The ROM with some bytes put at a place.
fn with<const N: usize>(mut rom: Vec<u8>, at: usize, bytes: [u8; N]) -> Vec<u8> {
    rom[at..at + N].copy_from_slice(&bytes);
    rom
}

#[test]
fn image_is_a_part_of_its_rom() {
    let units = |units, code_type| Image {
        units,
        code_type,
        ..MIDDLE
    };
    let last = Image {
        code_type: 9,
        ..LAST
    };
    let images = [units(2, 7).bytes(), units(3, 8).bytes(), last.bytes()];
    let rom = images.concat();
    for (code_type, place) in [(7, 0..1024), (8, 1024..2560), (9, 2560..3072)] {
        let found = find_image(&rom, 0x8086, 0x1234, code_type).unwrap();
        assert_eq!(found.as_ptr_range(), rom[place].as_ptr_range());
        assert!(found.starts_with(&[0x55, 0xAA]));
    }
    assert_eq!(find(&rom), Err(Refusal::NoImage));
}

#[test]
fn first_of_two_matches_is_taken() {
    let other = Image {
        code_type: 0,
        ..MIDDLE
    };
    let rom = [other.bytes(), MIDDLE.bytes(), LAST.bytes()].concat();
    let found = find(&rom).unwrap();
    assert_eq!(found.as_ptr_range(), rom[512..1024].as_ptr_range());
}

#[test]
fn fields_are_compared_whole() {
    for image in [
        LAST,
        Image {
            vendor: 0,
            device: 0,
            code_type: 0,
            ..LAST
        },
        Image {
            vendor: 0xFFFF,
            device: 0xFFFF,
            code_type: 0xFF,
            ..LAST
        },
    ] {
        let rom = image.bytes();
        let asked = [image.vendor, image.device, image.code_type.into()].map(u32::from);
        let [vendor, device, code_type] = asked;
        assert_eq!(find_image(&rom, vendor, device, code_type), Ok(&rom[..]));
        for field in 0..3 {
            for bit in 0..32 {
                let mut other = asked;
                other[field] ^= 1 << bit;
                let [vendor, device, code_type] = other;
                let refused = find_image(&rom, vendor, device, code_type);
                assert_eq!(refused, Err(Refusal::NoImage), "{field} {bit}");
            }
        }
    }
}

#[test]
fn large_numbers_match_nothing() {
    let type_0 = Image {
        code_type: 0,
        ..LAST
    };
    let rom = type_0.bytes();
    assert_eq!(find_image(&rom, 0x8086, 0x1234, 0), Ok(&rom[..]));
    for (vendor, device, code_type) in [
        (0x1_8086, 0x1234, 0),
        (0x8086, 0x1_1234, 0),
        (0x8086, 0x1234, 256),
        (0x1234_8086, 0, 0),
    ] {
        let refused = find_image(&rom, vendor, device, code_type);
        assert_eq!(refused, Err(Refusal::NoImage));
    }
}

#[test]
fn fields_of_two_images_do_not_add_up() {
    let (vendor, device, code_type) = (0x8087, 0x1235, 4);
    let others = [
        Image { vendor, ..MIDDLE },
        Image { device, ..MIDDLE },
        Image {
            code_type,
            indicator: 0x80,
            ..MIDDLE
        },
    ];
    let rom = others.map(|image| image.bytes()).concat();
    assert!(sound(&rom));
    assert_eq!(find(&rom), Err(Refusal::NoImage));
    let last = [&rom[..1024], &LAST.bytes()].concat();
    assert_eq!(find(&last), Ok(&last[1024..]));
}

#[test]
fn device_list_does_not_count() {
    let other = Image {
        device: 0x5678,
        code_type: 0,
        ..LAST
    };
    // Revision 3, with a list of devices 0x1234 and 0x5678 that starts 0x1C after the structure's start.
    let rom = with(other.bytes(), 0x1C + 0x08, [0x1C, 0, 0x1C, 0, 3]);
    let rom = with(rom, 0x1C + 0x1C, [0x34, 0x12, 0x78, 0x56, 0, 0]);
    let found = |device| find_image(&rom, 0x8086, device, 0);
    assert_eq!(found(0x1234), Err(Refusal::NoImage));
    assert_eq!(found(0x5678), Ok(&rom[..]));
}

#[test]
fn every_byte_of_an_image() {
    let right = LAST.bytes();
    assert_eq!(find(&right), Ok(&right[..]));
    for at in 0..512 {
        let mut changed = right.clone();
        changed[at] ^= 0xFF;
        let expect = match at {
            // Signature, pointer, letters, length and indicator.
            0..0x02 | 0x18..0x1A | 0x1C..0x20 | 0x2C..0x2E | 0x31 => Err(Refusal::Rom),
            // Vendor, device and code type.
            0x20..0x24 | 0x30 => Err(Refusal::NoImage),
            _ => Ok(&changed[..]),
        };
        assert_eq!(find(&changed), expect, "{at:#X}");
    }
}

#[test]
fn every_bit_of_a_signature_in_every_image() {
    let rom = [MIDDLE.bytes(), MIDDLE.bytes(), LAST.bytes()].concat();
    for start in [0, 512, 1024] {
        for at in [0, 1, 0x1C, 0x1D, 0x1E, 0x1F] {
            for bit in 0..8 {
                let mut wrong = rom.clone();
                wrong[start + at] ^= 1 << bit;
                assert!(!sound(&wrong), "{start} {at:#X} {bit}");
            }
        }
        assert!(!sound(&with(rom.clone(), start, [0xAA, 0x55])));
        assert!(!sound(&with(rom.clone(), start + 0x1C, *b"RICP")));
        assert!(!sound(&with(rom.clone(), start + 0x1C, *b"pcir")));
    }
    assert!(sound(&rom));
}

#[test]
fn structure_must_end_inside_the_rom() {
    let inside = Image {
        pointer: 0x1E8,
        ..LAST
    };
    let rom = inside.in_rom(512);
    assert_eq!(find(&rom), Ok(&rom[..]));
    let outside = Image {
        pointer: 0x1E9,
        ..LAST
    };
    let rom = outside.in_rom(513);
    assert_eq!(find(&rom), Ok(&rom[..512]));
    assert!(!sound(&rom[..512]));
}

#[test]
fn structure_needs_no_alignment() {
    for pointer in 0x1A..=0x1E8 {
        let rom = Image { pointer, ..LAST }.bytes();
        assert_eq!(find(&rom), Ok(&rom[..]), "{pointer:#X}");
    }
}

#[test]
fn structure_may_lie_over_the_header() {
    // The last two of its 24 bytes are the pointer.
    let rom = Image { pointer: 2, ..LAST }.bytes();
    assert_eq!(rom[0x18..0x1A], [2, 0]);
    assert_eq!(find(&rom), Ok(&rom[..]));
    for pointer in [0, 1] {
        // It lies over the signature.
        assert!(!sound(&with(rom.clone(), 0x18, [pointer, 0])));
    }
}

#[test]
fn structure_may_lie_behind_its_image() {
    for pointer in [0x1E9, 0x1FF, 0x200, 0x3E8] {
        let rom = Image { pointer, ..LAST }.in_rom(1024);
        assert_eq!(find(&rom), Ok(&rom[..512]), "{pointer:#X}");
    }
    let far = Image {
        pointer: 0xFFFF,
        ..LAST
    };
    let rom = far.in_rom(0xFFFF + 24);
    assert_eq!(find(&rom), Ok(&rom[..512]));
    assert!(!sound(&rom[..0xFFFF + 23]));
}

#[test]
fn two_images_may_share_a_structure() {
    let rom = [MIDDLE.bytes(), MIDDLE.bytes(), LAST.bytes()].concat();
    let second = 0x200 + 0x1C;
    let shared = with(rom.clone(), 0x18, [0x1C, 0x02]);
    let shared = with(shared, 0x1C, [0; 4]);
    assert_eq!(find(&shared), Ok(&shared[..512]));
    // With the last bit of the shared structure set, the chain ends with the first image.
    let ended = with(shared, second + 0x15, [0x80]);
    let ended = with(ended, 0x200, [0; 2]);
    assert_eq!(find(&ended), Ok(&ended[..512]));
}

#[test]
fn pointer_counts_from_its_own_image() {
    let first = Image {
        units: 2,
        code_type: 0,
        ..MIDDLE
    };
    let second = Image {
        pointer: 0x40,
        ..LAST
    };
    let rom = [first.bytes(), second.bytes()].concat();
    assert_eq!(find(&rom), Ok(&rom[1024..]));
    // From the ROM's start the structure is at 0x440.
    assert_eq!(rom[0x440..0x444], *b"PCIR");
    let from_rom = with(rom, 0x418, [0x40, 0x04]);
    assert!(!sound(&from_rom));
}

#[test]
fn rom_cut_short() {
    let middle = Image { units: 2, ..MIDDLE };
    let rom = [middle.bytes(), LAST.bytes()].concat();
    assert_eq!(rom.len(), 1536);
    for end in 0..1536 {
        assert!(!sound(&rom[..end]), "{end}");
    }
    assert_eq!(find(&rom), Ok(&rom[..1024]));
    assert!(!sound(&[]));
}

#[test]
fn length_is_in_units_of_512_bytes() {
    for units in [1, 2, 0xFF, 0x100, 0x101] {
        let rom = Image { units, ..LAST }.bytes();
        assert_eq!(rom.len(), 512 * usize::from(units));
        assert_eq!(find(&rom), Ok(&rom[..]));
        assert!(!sound(&rom[..rom.len() - 1]));
    }
    let rom = Image { units: 2, ..LAST }.in_rom(512);
    assert!(!sound(&rom));
}

#[test]
fn high_byte_of_a_length_comes_second() {
    let high = Image {
        units: 0x0100,
        ..LAST
    };
    let rom = high.in_rom(131_072);
    assert_eq!(rom[0x2C..0x2E], [0, 1]);
    assert_eq!(find(&rom), Ok(&rom[..]));
    assert!(!sound(&rom[..131_071]));
    let low = with(rom, 0x2C, [1, 0]);
    assert_eq!(find(&low), Ok(&low[..512]));
}

#[test]
fn length_0_breaks_the_chain() {
    let rom = [MIDDLE.bytes(), MIDDLE.bytes(), LAST.bytes()].concat();
    for start in [0, 512, 1024] {
        assert!(!sound(&with(rom.clone(), start + 0x2C, [0, 0])));
    }
}

#[test]
fn bit_7_alone_tells_the_last_image() {
    for indicator in 0..=255 {
        let rom = Image { indicator, ..LAST }.bytes();
        assert_eq!(sound(&rom), indicator >= 0x80, "{indicator:#X}");
        let more = [&rom[..], &LAST.bytes()].concat();
        assert!(sound(&more));
        assert_eq!(find(&more), Ok(&more[..512]));
        let broken = [&rom[..], &[0; 512]].concat();
        assert_eq!(sound(&broken), indicator >= 0x80, "{indicator:#X}");
    }
}

#[test]
fn chain_must_have_a_last_image() {
    for images in 1..5 {
        let mut rom = MIDDLE.bytes().repeat(images);
        assert!(!sound(&rom));
        rom.extend([0xFF; 512]);
        assert!(!sound(&rom));
    }
}

#[test]
fn bytes_after_the_last_image_are_ignored() {
    let other = Image {
        code_type: 0,
        ..LAST
    };
    for extra in [1, 2, 0x19, 0x1A, 511, 512, 513] {
        let rom = [LAST.bytes(), vec![0xFF; extra]].concat();
        assert_eq!(find(&rom), Ok(&rom[..512]), "{extra}");
    }
    let rom = [other.bytes(), LAST.bytes()].concat();
    assert_eq!(find(&rom), Err(Refusal::NoImage));
}

#[test]
fn rom_of_16_mib() {
    let whole = Image {
        units: 0x8000,
        ..LAST
    };
    let mut rom = whole.in_rom(16_777_216);
    assert_eq!(find(&rom), Ok(&rom[..]));
    assert!(!sound(&with(rom.clone(), 0x2C, [0x01, 0x80])));
    rom.push(0);
    assert!(!sound(&rom));
    LAST.lay(&mut rom);
    assert!(!sound(&rom));
    assert_eq!(find(&rom[..16_777_216]), Ok(&rom[..512]));
}

#[test]
fn chain_of_32768_images() {
    let other = Image {
        code_type: 0,
        ..MIDDLE
    };
    let mut rom = other.bytes().repeat(32_767);
    rom.extend(LAST.bytes());
    assert_eq!(rom.len(), 16_777_216);
    assert_eq!(find(&rom), Ok(&rom[16_776_704..]));
    let end = rom.len() - 512;
    assert!(!sound(&with(rom, end + 0x31, [0x7F])));
}

#[test]
fn whole_chain_is_checked_first() {
    let rom = [MIDDLE.bytes(), LAST.bytes()].concat();
    assert_eq!(find(&rom), Ok(&rom[..512]));
    for broken in [
        with(rom.clone(), 0x200, [0x54]),
        with(rom.clone(), 0x218, [0xE9, 0x01]),
        with(rom.clone(), 0x21F, *b"r"),
        with(rom.clone(), 0x22C, [0, 0]),
        with(rom.clone(), 0x22C, [2, 0]),
        with(rom.clone(), 0x231, [0x7F]),
        rom[..1023].to_vec(),
        rom[..512].to_vec(),
    ] {
        assert_eq!(find(&broken), Err(Refusal::Rom));
    }
}
