//! Searches for ROM images.

use slipwattle::sys;
use trials::roms::{IMAGE, MOST_BYTES, UNIT, alike};

use crate::cases::Runner;

/// The case in a ROM of the greatest length.
pub const LONGEST: &str = "image search, 16 MiB in 32,768 images, the last of them";

pub fn images(run: &mut impl Runner) {
    let [one, two] = [1, 2].map(alike);
    let cut = &two[..two.len() - 1];
    find_image(run, "image search, 512 bytes in 1 image", &one, 3);
    let second = "image search, 1,024 bytes in 2 images, the second of them";
    find_image(run, second, &two, 3);
    find_image(
        run,
        "image search, 1,023 bytes, the last image cut: refusal 12",
        cut,
        3,
    );
    find_image(
        run,
        "image search, 512 bytes, no such image: refusal 13",
        &one,
        1,
    );
    if run.wants(LONGEST) {
        find_image(run, LONGEST, &alike(MOST_BYTES / UNIT), 3);
    }
}

fn find_image(run: &mut impl Runner, name: &'static str, rom: &[u8], code_type: u32) {
    let [vendor, device, _] = IMAGE.fields();
    run.case(
        name,
        // SAFETY: pointer and length of a slice.
        || unsafe {
            sys::slipwattle_find_image(rom.as_ptr(), rom.len(), vendor, device, code_type)
        },
        || reference::find_image(rom, vendor, device, code_type),
    );
}
