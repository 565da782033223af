//! Searches for a ROM image that misread document 02, a. Each is the right walk with one rule changed.

use trials::call::{Call, FindImage};
use trials::exhaustive::roms;
use trials::given::{Given, Handed};
use trials::roms::{DEVICE_LIST, HEADER, LAST, MOST_BYTES, SIGNATURE, STRUCTURE, UNIT};
use trials::service::{Pair, Service};

use crate::wrong::{Wrong, found, pair, tried};

/// An image as a walk meets it, sound or not.
struct Met<'a> {
    rom: &'a [u8],
    start: usize,
    pointer: usize,
    /// The bytes from its structure's start to the ROM's end.
    structure: &'a [u8],
    size: usize,
}

impl Met<'_> {
    fn has_signature(&self) -> bool {
        self.rom[self.start..].starts_with(&SIGNATURE)
    }

    fn has_letters(&self) -> bool {
        self.structure.starts_with(b"PCIR")
    }

    fn end(&self) -> usize {
        self.start + self.size
    }

    fn is_inside(&self) -> bool {
        self.end() <= self.rom.len()
    }

    fn indicator(&self) -> u8 {
        self.structure[0x15]
    }

    /// Vendor, device and code type.
    fn fields(&self) -> [u32; 3] {
        let half = |at| half(self.structure, at).unwrap_or_default() as u32;
        [half(4), half(6), self.structure[0x14].into()]
    }

    fn lists(&self, device: u32) -> bool {
        let list = half(self.structure, DEVICE_LIST).unwrap_or_default();
        let devices = (list..).step_by(2).map_while(|at| half(self.structure, at));
        let mut devices = devices.take_while(|listed| *listed != 0);
        list != 0 && devices.any(|listed| listed as u32 == device)
    }
}

fn half(bytes: &[u8], at: usize) -> Option<usize> {
    let half = bytes.get(at..)?.first_chunk()?;
    Some(u16::from_le_bytes(*half).into())
}

/// Where a part of the ROM starts, and its length.
type At = (usize, usize);

struct Rules {
    most: usize,
    /// Bytes from a structure's start that must lie inside the ROM.
    structure: usize,
    unit: usize,
    /// What the pointer counts from, by where the image starts.
    origin: fn(usize) -> usize,
    sound: fn(&Met) -> bool,
    last: fn(&Met) -> bool,
    matches: fn(&Met, [u32; 3]) -> bool,
    part: fn(&Met) -> At,
    /// What is given of the parts that match, and whether the chain is sound.
    answer: fn(&[At], bool) -> Result<At, u8>,
}

const RIGHT: Rules = Rules {
    most: MOST_BYTES,
    structure: STRUCTURE,
    unit: UNIT,
    origin: |start| start,
    sound: is_sound,
    last: |met| met.indicator() & LAST != 0,
    matches: |met, asked| met.fields() == asked,
    part: |met| (met.start, met.size),
    answer: |parts, sound| match (sound, parts) {
        (false, _) => Err(12),
        (true, []) => Err(13),
        (true, [first, ..]) => Ok(*first),
    },
};

fn is_sound(met: &Met) -> bool {
    met.has_signature() && met.has_letters() && met.size > 0 && met.is_inside()
}

impl Rules {
    fn meet<'a>(&self, rom: &'a [u8], start: usize) -> Option<Met<'a>> {
        let pointer = half(rom.get(start..)?.get(..HEADER)?, HEADER - 2)?;
        let structure = rom.get((self.origin)(start) + pointer..)?;
        structure.get(..self.structure)?;
        let met = Met {
            rom,
            start,
            pointer,
            structure,
            size: self.unit * half(structure, 0x10)?,
        };
        (self.sound)(&met).then_some(met)
    }

    fn find(&self, rom: &[u8], asked: [u32; 3]) -> Result<At, u8> {
        let mut parts = Vec::new();
        let mut start = 0;
        let sound = loop {
            let Some(met) = self.meet(rom, start) else {
                break false;
            };
            if (self.matches)(&met, asked) {
                parts.push((self.part)(&met));
            }
            if (self.last)(&met) {
                break true;
            }
            start = met.end();
        };
        (self.answer)(&parts, sound && rom.len() <= self.most)
    }
}

/// The reference, with a search by these rules.
fn searched(wrong: &mut Wrong, call: &mut Call, rules: &Rules) -> Given {
    let Call::FindImage(search) = &*call else {
        return wrong.reference.call(call);
    };
    let asked = [search.vendor, search.device, search.code_type];
    match rules.find(search.rom.lent(), asked) {
        Ok((start, length)) => Given {
            number: 0,
            handed: Handed::Image { start, length },
        },
        Err(number) => Given {
            number,
            handed: Handed::zeros(call),
        },
    }
}

/// The search that shows wrong rules by itself, and the bytes of its ROM.
fn found_search(make: fn() -> Pair) -> (FindImage, usize) {
    let found = found(make);
    match &found.list[..] {
        [Call::FindImage(search)] => (search.clone(), search.rom.lent().len()),
        _ => panic!("{}", found.report()),
    }
}

type Comparison = fn(fn() -> Pair) -> Result<u64, String>;

/// A search in a ROM of so many bytes shows wrong rules, and an exhaustive comparison does.
fn found_in(rom: usize, comparison: Comparison, make: fn() -> Pair) {
    let (search, bytes) = found_search(make);
    assert_eq!(bytes, rom, "{search:x?}");
    assert!(comparison(make).is_err());
}

/// Where the first image of the ROM has its structure.
fn pointer(search: &FindImage) -> usize {
    half(search.rom.lent(), HEADER - 2).expect("a header")
}

/// A program that searches with one rule changed.
macro_rules! wrongly {
    ($rule:ident: $changed:expr) => {
        || {
            pair(|wrong, call| {
                let rules = Rules {
                    $rule: $changed,
                    ..RIGHT
                };
                searched(wrong, call, &rules)
            })
        }
    };
}

#[test]
fn the_rules_hold_of_every_rom() {
    let right = wrongly!(most: MOST_BYTES);
    assert!(tried(right).is_ok());
    for comparison in [
        roms::changed_bytes,
        roms::cut_roms,
        roms::pointers,
        roms::far_pointers,
        roms::lengths,
        roms::indicators,
        roms::sizes,
        roms::asked,
    ] {
        comparison(right).unwrap();
    }
}

#[test]
fn the_second_match_chosen() {
    let second = wrongly!(answer: |parts, sound| match parts {
        [_, second, ..] if sound => Ok(*second),
        _ => (RIGHT.answer)(parts, sound),
    });
    found_in(2 * UNIT, roms::changed_bytes, second);
}

/// No image follows where one should.
#[test]
fn an_image_chosen_before_the_chain_is_checked() {
    let early = wrongly!(answer: |parts, sound| match parts {
        [first, ..] => Ok(*first),
        [] => (RIGHT.answer)(parts, sound),
    });
    found_in(UNIT, roms::cut_roms, early);
}

#[test]
fn refusal_13_before_12() {
    let early = wrongly!(answer: |parts, sound| match parts {
        [] => Err(13),
        _ => (RIGHT.answer)(parts, sound),
    });
    found_in(0, roms::cut_roms, early);
}

fn finds_nothing_in_an_empty_rom(wrong: &mut Wrong, call: &mut Call) -> Given {
    let mut given = wrong.reference.call(call);
    if let Call::FindImage(search) = call
        && search.rom.lent().is_empty()
    {
        given.number = 13;
    }
    given
}

#[test]
fn refusal_13_for_an_empty_rom() {
    found_in(0, roms::cut_roms, || pair(finds_nothing_in_an_empty_rom));
}

#[test]
fn the_header_left_out_of_the_part() {
    let part = wrongly!(part: |met| (met.start + HEADER, met.size - HEADER));
    found_in(UNIT, roms::cut_roms, part);
}

#[test]
fn the_part_from_the_structure_on() {
    let part = wrongly!(part: |met| {
        (met.start + met.pointer, met.size.saturating_sub(met.pointer))
    });
    found_in(UNIT, roms::cut_roms, part);
}

#[test]
fn a_structure_of_22_bytes_enough() {
    let fewer = wrongly!(structure: STRUCTURE - 2);
    let (search, bytes) = found_search(fewer);
    assert!(matches!(bytes - pointer(&search), 22 | 23));
    assert!(roms::pointers(fewer).is_err());
}

#[test]
fn the_pointer_counted_from_the_roms_start() {
    found_in(2 * UNIT, roms::pointers, wrongly!(origin: |_| 0));
}

#[test]
fn the_length_in_bytes() {
    found_in(HEADER + STRUCTURE, roms::lengths, wrongly!(unit: 1));
}

/// A signature stands behind the last image.
#[test]
fn a_walk_on_behind_the_last_image() {
    let on = wrongly!(last: |met| {
        (RIGHT.last)(met) && !met.rom[met.end()..].starts_with(&SIGNATURE)
    });
    found_in(UNIT + SIGNATURE.len(), roms::indicators, on);
}

/// A byte stands behind the last image.
#[test]
fn the_last_image_found_by_the_roms_end() {
    let by_end = wrongly!(last: |met| met.end() == met.rom.len());
    found_in(UNIT + 1, roms::indicators, by_end);
}

#[test]
fn the_indicator_compared_whole() {
    let whole = wrongly!(last: |met| met.indicator() == LAST);
    found_in(UNIT, roms::indicators, whole);
}

#[test]
fn the_signature_of_the_first_image_alone_asked() {
    let first = wrongly!(sound: |met| match met.start {
        0 => is_sound(met),
        _ => met.size > 0 && met.has_letters() && met.is_inside(),
    });
    found_search(first);
    assert!(roms::changed_bytes(first).is_err());
}

#[test]
fn a_last_image_of_length_0_accepted() {
    let zero = wrongly!(sound: |met| {
        let zero = met.size == 0 && (RIGHT.last)(met);
        is_sound(met) || (met.has_signature() && met.has_letters() && zero)
    });
    let (search, bytes) = found_search(zero);
    assert_eq!(bytes, pointer(&search) + STRUCTURE);
    assert!(roms::lengths(zero).is_err());
}

#[test]
fn the_last_image_past_the_end_accepted() {
    let past = wrongly!(sound: |met| {
        let inside = met.is_inside() || (RIGHT.last)(met);
        met.has_signature() && met.has_letters() && met.size > 0 && inside
    });
    let (search, bytes) = found_search(past);
    assert_eq!(bytes, pointer(&search) + STRUCTURE);
    assert!(roms::cut_roms(past).is_err());
}

#[test]
fn a_pointer_that_must_be_a_multiple_of_4() {
    let aligned = wrongly!(sound: |met| is_sound(met) && met.pointer.is_multiple_of(4));
    found_in(UNIT, roms::pointers, aligned);
}

#[test]
fn a_structure_that_must_lie_inside_its_image() {
    let inside = wrongly!(sound: |met| is_sound(met) && met.pointer + STRUCTURE <= met.size);
    let (search, bytes) = found_search(inside);
    assert_eq!(bytes, pointer(&search) + STRUCTURE);
    assert!(roms::far_pointers(inside).is_err());
}

#[test]
fn a_device_of_a_list_matched() {
    let listed = wrongly!(matches: |met, [vendor, device, code_type]| {
        let [_, own, _] = met.fields();
        let listed = own == device || met.lists(device);
        listed && met.fields() == [vendor, own, code_type]
    });
    let (_, bytes) = found_search(listed);
    assert_eq!(bytes, UNIT);
}

#[test]
fn a_vendor_narrowed_to_16_bits() {
    let narrowed = wrongly!(matches: |met, [vendor, device, code_type]| {
        met.fields() == [vendor & 0xFFFF, device, code_type]
    });
    found_in(UNIT, roms::asked, narrowed);
}

#[test]
fn a_device_narrowed_to_16_bits() {
    let narrowed = wrongly!(matches: |met, [vendor, device, code_type]| {
        met.fields() == [vendor, device & 0xFFFF, code_type]
    });
    found_in(UNIT, roms::asked, narrowed);
}

#[test]
fn a_code_type_narrowed_to_a_byte() {
    let narrowed = wrongly!(matches: |met, [vendor, device, code_type]| {
        met.fields() == [vendor, device, code_type & 0xFF]
    });
    found_in(UNIT, roms::asked, narrowed);
}

/// No random call has a ROM of this size.
#[test]
fn a_rom_of_16_mib_refused() {
    let why = roms::sizes(wrongly!(most: MOST_BYTES - 1)).expect_err("it is found");
    assert!(why.contains("rom (16777216 bytes) 55 AA"), "{why}");
}

#[test]
fn a_rom_of_a_byte_more_accepted() {
    let why = roms::sizes(wrongly!(most: MOST_BYTES + 1)).expect_err("it is found");
    assert!(why.contains("rom (16777217 bytes) 55 AA"), "{why}");
}
