//! Comparisons of every case of a small range.

mod blocks;
pub mod granting;
pub mod masks;
mod places;
pub mod registers;
pub mod roms;
pub mod starts;
pub mod sums;
pub mod writer;

use crate::call::Call;
use crate::comparison;
use crate::given::Given;
use crate::print;
use crate::random_trials::shortest;
use crate::service::Pair;
use crate::settings::Settings;

/// The name of each comparison, and the comparison: the count of its calls, or a difference in words.
type Comparison = (&'static str, fn(fn() -> Pair) -> Result<u64, String>);

const COMPARISONS: [Comparison; 30] = [
    (
        "every offset with every width, and numbers beyond",
        places::offsets_and_widths,
    ),
    (
        "every device with every function, and numbers beyond",
        places::devices_and_functions,
    ),
    (
        "every bus of every bridge and numbers beyond, read back under each session",
        places::buses_and_sessions,
    ),
    (
        "every window edge and the bytes beside it, of 9 bridges and of 64",
        places::edges,
    ),
    (
        "every number of rows, and of entries, to 2 past the most",
        starts::numbers,
    ),
    (
        "an MCFG table of every length to 2 entries past the most, its checksum right and wrong",
        starts::lengths,
    ),
    (
        "every two of 64 rows that share a bus, and of 64 entries that share a bus or a byte",
        starts::pairs,
    ),
    (
        "every byte of an MCFG table changed to every value",
        starts::changed_bytes,
    ),
    (
        "every number of a row changed to every value of a byte and to every bit",
        starts::changed_rows,
    ),
    (
        "every edition of a byte, Express and conventional, with every permitted bit by itself, none and all",
        starts::editions,
    ),
    (
        "every byte of a record block changed to every value",
        blocks::changed_bytes,
    ),
    ("a record block cut at every byte", blocks::cut_blocks),
    (
        "a record block of every length from 74 bytes to 100 past the most",
        blocks::lengths,
    ),
    (
        "every record type of a byte, and numbers beyond",
        blocks::types,
    ),
    (
        "every bit of every pair of masks as it can be, with all others cleared, kept or set: searched, used and written",
        masks::pairs,
    ),
    (
        "every bit of every register, 0 or 1, cleared, kept or set, with all others 0 or 1, cleared, kept or set",
        registers::bits,
    ),
    (
        "every byte of a ROM of 2 images changed to every value",
        roms::changed_bytes,
    ),
    ("a ROM of 1 to 6 images cut at every byte", roms::cut_roms),
    (
        "every pointer of an image, with the structure there",
        roms::pointers,
    ),
    (
        "pointers beside every power of two from 32 on, in a ROM just above 64 KiB",
        roms::far_pointers,
    ),
    (
        "every length of the first of 8 images, the last of its ROM or not",
        roms::lengths,
    ),
    ("every two indicators of 2 images", roms::indicators),
    (
        "a ROM of 16 MiB, a byte less and a byte more, in 1 image; in 32,768 images and one more",
        roms::sizes,
    ),
    (
        "every vendor, device and code type of a byte, and those of 3 images with every bit flipped",
        roms::asked,
    ),
    (
        "every choice of records in every buffer to 120 bytes, with values at and past every limit and senseless pairs",
        writer::choices,
    ),
    (
        "every flag of every type, beside absent records and beside present ones",
        writer::flags,
    ),
    (
        "every value that has a limit from 0 to 2 past it, and every value with every bit flipped",
        writer::values,
    ),
    (
        "every choice of records in rising order, read and written again",
        writer::again,
    ),
    (
        "records in every order and among fields that are skipped, read and written again",
        writer::orders,
    ),
    (
        "every byte of a block of three records changed to every value, read and written again",
        writer::changed_bytes,
    ),
];

/// Makes all comparisons of calls and tells the count of each.
pub fn run(make: fn() -> Pair, tell: &mut dyn FnMut(&str, u64)) -> Result<(), String> {
    for (name, comparison) in COMPARISONS {
        tell(name, comparison(make)?);
    }
    Ok(())
}

/// Two programs after some first calls, and a count of the calls compared since.
struct Bench {
    make: fn() -> Pair,
    pair: Pair,
    first: Vec<Call>,
    count: u64,
}

impl Bench {
    fn new(make: fn() -> Pair, first: Vec<Call>) -> Result<Bench, String> {
        let mut pair = make();
        if comparison::compare(&first, &mut pair, &mut |_| ()).is_some() {
            return Err(difference(&first, make));
        }
        Ok(Bench {
            make,
            pair,
            first,
            count: 0,
        })
    }

    /// Makes the call on both, unless one of them does not take it; a difference is an error, in words. A start becomes the first call
    /// of those after it; an _OSC call stands behind it.
    fn check(&mut self, call: impl Into<Call>) -> Result<Option<Given>, String> {
        let call = call.into();
        if !self.pair.takes(&call) {
            return Ok(None);
        }
        let (_, given) = self.made(&call)?;
        match call {
            Call::Start(_) => self.first = vec![call],
            Call::Osc(_) => self.first.push(call),
            _ => {}
        }
        Ok(Some(given))
    }

    /// Makes the call on both, which must give this number.
    fn expect(&mut self, call: impl Into<Call>, number: u8) -> Result<(), String> {
        let call = call.into();
        match self.check(call.clone())? {
            Some(given) if given.number != number => Err(format!(
                "both give {given:x?} instead of {number} for {call:x?}"
            )),
            _ => Ok(()),
        }
    }

    /// The records of a block as both read them, or a refusal's number.
    fn read(&mut self, block: &[u8]) -> Result<Result<Settings, u8>, String> {
        self.count += 1;
        let lent = block.to_vec().into();
        let read = [&mut self.pair.left, &mut self.pair.right].map(|side| side.read(&lent));
        if read[0] == read[1] {
            return Ok(read[0]);
        }
        Err(format!(
            "{block:x?}\nis read as\n{:x?}\nand as\n{:x?}",
            read[0], read[1]
        ))
    }

    /// The call as both left it, and what it gives.
    fn made(&mut self, call: &Call) -> Result<(Call, Given), String> {
        self.count += 1;
        comparison::compare_call(call, &mut self.pair).map_err(|_| {
            self.first.push(call.clone());
            difference(&self.first, self.make)
        })
    }
}

/// The shortest list from this one that shows a difference.
fn difference(list: &[Call], make: fn() -> Pair) -> String {
    match shortest(list, make) {
        Some((list, difference)) => print::report(&list, &difference),
        None => "a difference that depends on calls that leave the table as it is".to_string(),
    }
}
