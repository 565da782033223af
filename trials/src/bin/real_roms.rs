//! Real expansion ROMs: every file of the folders that are its arguments. For each the library and the reference give the same, whichever
//! card and code type is asked for, and when the file is cut. A file that `CARDS` names has that card's images, and both give the same when
//! a byte of their headers and structures is changed.
use std::error::Error;
use std::fs;
use std::ops::Range;
use std::path::PathBuf;
use std::process::ExitCode;

use slipwattle::code_type::{PC_AT, UEFI};

/// A vendor and a device.
type Card = (u32, u32);

/// Cards by the names of files.
const CARDS: [(&str, Card); 21] = [
    ("efi-e1000", (0x8086, 0x100E)),
    ("efi-e1000e", (0x8086, 0x10D3)),
    ("efi-eepro100", (0x8086, 0x1229)),
    ("efi-pcnet", (0x1022, 0x2000)),
    ("efi-rtl8139", (0x10EC, 0x8139)),
    ("efi-virtio", (0x1AF4, 0x1041)),
    ("efi-vmxnet3", (0x15AD, 0x07B0)),
    ("pxe-e1000", (0x8086, 0x100E)),
    ("pxe-e1000e", (0x8086, 0x10D3)),
    ("pxe-eepro100", (0x8086, 0x1229)),
    ("pxe-pcnet", (0x1022, 0x2000)),
    ("pxe-rtl8139", (0x10EC, 0x8139)),
    ("pxe-virtio", (0x1AF4, 0x1041)),
    ("pxe-vmxnet3", (0x15AD, 0x07B0)),
    ("vgabios-ati", (0x1002, 0x5159)),
    ("vgabios-bochs-display", (0x1234, 0x1111)),
    ("vgabios-cirrus", (0x1013, 0x00B8)),
    ("vgabios-qxl", (0x1B36, 0x0100)),
    ("vgabios-stdvga", (0x1234, 0x1111)),
    ("vgabios-virtio", (0x1AF4, 0x1050)),
    ("vgabios-vmware", (0x15AD, 0x0405)),
];
/// What else is asked of a ROM: a card that none of the files has.
const OTHER: Card = (0x10EC, 0x8168);

/// The refusal's number, or where the image lies in the ROM.
type Found = Result<Range<usize>, u8>;

fn main() -> ExitCode {
    match all_files().and_then(|files| try_all(&files)) {
        Ok(()) => ExitCode::SUCCESS,
        Err(error) => {
            eprintln!("real_roms: {error}");
            ExitCode::FAILURE
        }
    }
}

/// The files of the folders, by name; a link is another name of one.
fn all_files() -> Result<Vec<PathBuf>, Box<dyn Error>> {
    let mut files = Vec::new();
    for folder in std::env::args_os().skip(1) {
        for entry in fs::read_dir(folder)? {
            let entry = entry?;
            if entry.file_type()?.is_file() {
                files.push(entry.path());
            }
        }
    }
    files.sort();
    Ok(files)
}

fn try_all(files: &[PathBuf]) -> Result<(), Box<dyn Error>> {
    let (mut calls, mut named, mut pairs) = (0, 0, 0);
    for file in files {
        let mut rom = fs::read(file)?;
        let stem = file.file_stem().unwrap_or_default().to_string_lossy();
        let card = CARDS.iter().find(|(name, _)| *name == stem);
        let card = card.map(|(_, card)| *card);
        let images = named_images(&stem, card, &rom).map_err(|e| format!("{stem}: {e}"))?;
        named += usize::from(!images.is_empty());
        pairs += usize::from(images.len() == 2);
        let same = same_in(&mut rom, card.unwrap_or(OTHER), &images);
        calls += same.map_err(|e| format!("{stem}: {e}"))?;
    }
    if named == 0 || pairs == 0 {
        return Err("no file is named after a card, or none has two images".into());
    }
    println!(
        "{} files, {named} with the images of the card in their name, {pairs} of them with two; {calls} calls, no difference",
        files.len()
    );
    Ok(())
}

/// Where the images of a file that is named after a card lie: one for PC-AT, and after `efi` another for UEFI. They fill the file.
fn named_images(stem: &str, card: Option<Card>, rom: &[u8]) -> Result<Vec<Range<usize>>, String> {
    let Some(card) = card else {
        return Ok(Vec::new());
    };
    let code_types: &[u32] = match stem.starts_with("efi-") {
        true => &[PC_AT, UEFI],
        false => &[PC_AT],
    };
    let images = code_types
        .iter()
        .map(|code_type| library(rom, card, *code_type));
    let images: Result<Vec<_>, _> = images.collect();
    let images = images.map_err(|number| format!("its card is refused with {number}"))?;
    let starts = images.iter().map(|image| image.start);
    let ends = images.iter().map(|image| image.end);
    if !std::iter::once(0).chain(ends).eq(starts.chain([rom.len()])) {
        return Err("its images do not fill it".into());
    }
    Ok(images)
}

/// Every card and code types 0 to 4; then for its own card the ROM cut around each unit of 512 bytes, and each byte of an image's header and
/// structure changed to every value.
fn same_in(rom: &mut [u8], card: Card, images: &[Range<usize>]) -> Result<usize, String> {
    let mut calls = 0;
    for other in CARDS.iter().map(|(_, card)| *card).chain([OTHER]) {
        for code_type in PC_AT..=UEFI + 1 {
            calls += same(rom, other, code_type)?;
        }
    }
    for length in (0..=rom.len()).filter(|length| (length + 1) % 512 < 3) {
        calls += same(&rom[..length], card, PC_AT)?;
    }
    let starts = images.iter().map(|image| image.start);
    let judged: Vec<usize> = starts.flat_map(|start| judged_bytes(rom, start)).collect();
    for at in judged {
        let before = rom[at];
        for value in 0..=u8::MAX {
            rom[at] = value;
            calls += same(rom, card, PC_AT)?;
        }
        rom[at] = before;
    }
    Ok(calls)
}

/// The header of the image that starts here, and the 24 bytes from its structure's start.
fn judged_bytes(rom: &[u8], start: usize) -> impl Iterator<Item = usize> + use<> {
    let pointer = u16::from_le_bytes([rom[start + 0x18], rom[start + 0x19]]);
    let structure = start + usize::from(pointer);
    (start..start + 0x1A).chain(structure..structure + 24)
}

/// One call of each.
fn same(rom: &[u8], card: Card, code_type: u32) -> Result<usize, String> {
    let (proved, reference) = (library(rom, card, code_type), second(rom, card, code_type));
    if proved == reference {
        return Ok(1);
    }
    let length = rom.len();
    Err(format!(
        "{length} bytes, {card:04x?} {code_type}: {proved:?}, the reference {reference:?}"
    ))
}

fn library(rom: &[u8], (vendor, device): Card, code_type: u32) -> Found {
    let found = slipwattle::find_image(rom, vendor, device, code_type);
    position(rom, found.map_err(|refusal| refusal.number()))
}

fn second(rom: &[u8], (vendor, device): Card, code_type: u32) -> Found {
    let found = reference::find_image(rom, vendor, device, code_type);
    position(rom, found.map_err(|refusal| refusal.number()))
}

/// The part by where it lies in the ROM; one outside it is no range of the ROM.
fn position(rom: &[u8], found: Result<&[u8], u8>) -> Found {
    let image = found?;
    let start = image.as_ptr().addr().wrapping_sub(rom.as_ptr().addr());
    Ok(start..start.wrapping_add(image.len()))
}
