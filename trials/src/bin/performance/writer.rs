//! Records written.

use slipwattle::sys;
use trials::service::{Boundary, Service, as_lent, as_records};
use trials::settings::{MASKS, MOST_BYTES, Settings};

use crate::cases::Runner;
use crate::inputs::{example_block, type_2};

/// Where Link Control's AND mask stands among the values.
const LAST_AND_LIMITED: usize = MASKS.start + 10;

pub fn writes(run: &mut impl Runner) {
    let three = settings();
    let mut one = three;
    one.flags = [1, 0, 0];
    let mut beyond = three;
    beyond.values[LAST_AND_LIMITED] |= 0x1_0000;
    write(run, "record writer, 1 record, 23 bytes", &one, MOST_BYTES);
    write(
        run,
        "record writer, 3 records, 113 bytes",
        &three,
        MOST_BYTES,
    );
    let too_large = "record writer, 3 records, a mask too large: refusal 14";
    write(run, too_large, &beyond, MOST_BYTES);
    let too_short = "record writer, 3 records, a buffer of 112 bytes: refusal 15";
    write(run, too_short, &three, MOST_BYTES - 1);
}

/// The three records of the blocks that are searched.
fn settings() -> Settings {
    let block = [example_block(), type_2()].concat();
    let mut boundary = Boundary::new();
    boundary.read(&block.into()).expect("a sound block")
}

fn write(run: &mut impl Runner, name: &'static str, settings: &Settings, room: usize) {
    let (ours, theirs) = (as_lent(settings), as_records(settings));
    let [mut a, mut b] = [vec![0; room], vec![0; room]];
    run.case(
        name,
        // SAFETY: pointer and length of a slice.
        || unsafe { sys::slipwattle_write_records(ours, a.as_mut_ptr(), a.len()) },
        || reference::write_records(theirs, &mut b),
    );
}
