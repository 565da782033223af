//! How often each call gave each number, and the answers of interest.

use std::fmt;

use crate::blocks::{self, DEVICE_CONTROL, PAYLOAD_SIZES};
use crate::call::{Call, FindImage, KINDS, LISTED, Osc, RegisterValues, WriteRecords};
use crate::comparison::Agreed;
use crate::editions::Asked;
use crate::given::Handed;
use crate::roms;
use crate::row::Row;
use crate::settings::TYPES;
use crate::ways::WAYS;

const NUMBERS: usize = 16;
/// A run of this many calls must give every listed number of every call at least `LEAST` times.
pub const FULL_RUN: u64 = 200_000;
pub const LEAST: u64 = 1_000;

/// What is counted beside the numbers, with the ways of right _OSC calls.
const ANSWERS: [&str; 27] = [
    "_OSC status 0x00",
    "_OSC status 0x02",
    "_OSC status 0x04",
    "_OSC status 0x08",
    "_OSC status 0x10",
    "_OSC query done",
    "_OSC taking call done",
    "record in the slot's block",
    "record in the bridge's block",
    "register values with AER held",
    "register values without AER",
    "payload sizes kept",
    "image, the first of its ROM",
    "image behind another",
    "image, another match behind it",
    "ROM broken behind a match",
    "records of all three types",
    "records with bytes behind them",
    "an absent value out of range",
    "14 with too short a buffer",
    "a buffer one byte too short",
    "8 by a senseless pair, search",
    "8 by a senseless pair, values",
    "14 by a senseless pair",
    "an absent senseless pair",
    "senseless in another revision",
    "start, rows of both editions",
];
const AER: u32 = 1 << 3;

#[derive(Default)]
pub struct Counts {
    numbers: [[u64; NUMBERS]; KINDS.len()],
    answers: [u64; ANSWERS.len()],
    ways: [u64; WAYS.len()],
}

impl Counts {
    pub fn calls(&self) -> u64 {
        self.numbers.iter().flatten().sum()
    }

    pub fn note(&mut self, agreed: &Agreed) {
        self.numbers[agreed.call.kind()][usize::from(agreed.given.number)] += 1;
        match (agreed.given.number, agreed.call) {
            (0, _) => self.note_answer(agreed),
            (12, Call::FindImage(call)) => self.answers[15] += u64::from(matches(call) > 0),
            (14, Call::WriteRecords(call)) => {
                self.answers[19] += u64::from(missing(call) > 0);
                self.answers[23] += u64::from(call.settings.is_senseless_alone());
            }
            (15, Call::WriteRecords(call)) => self.answers[20] += u64::from(missing(call) == 1),
            _ => {}
        }
        self.note_senseless(agreed);
    }

    /// Blocks that one senseless pair alone makes unsound, and sound ones with a senseless pair that is skipped.
    fn note_senseless(&mut self, agreed: &Agreed) {
        let (slot, bridge_block, refused) = match agreed.call {
            Call::FindRecord(call) => (&call.slot, &call.bridge_block, 21),
            Call::RegisterValues(call) => (&call.slot, &call.bridge_block, 22),
            _ => return,
        };
        let block = match slot.lent() {
            [] => bridge_block.lent(),
            slot => slot,
        };
        match agreed.given.number {
            8 => self.answers[refused] += u64::from(blocks::is_senseless_alone(block)),
            0 | 9 => self.answers[25] += u64::from(blocks::is_senseless_elsewhere(block)),
            _ => {}
        }
    }

    fn note_answer(&mut self, agreed: &Agreed) {
        match (agreed.call, agreed.given.handed) {
            (Call::Start(_), _) => self.answers[26] += u64::from(mixes_editions(agreed.rows)),
            (Call::Osc(call), _) => self.note_osc(call, agreed),
            (Call::FindRecord(_), Handed::Record { in_slot, .. }) => {
                self.answers[if in_slot { 7 } else { 8 }] += 1;
            }
            (Call::RegisterValues(call), _) => {
                let report = agreed.reports[usize::from(call.bridge)].handed;
                let aer = matches!(report, Handed::Holding { held, .. } if held & AER != 0);
                self.answers[if aer { 9 } else { 10 }] += 1;
                self.answers[11] += u64::from(asks_for_other_sizes(call));
            }
            (Call::FindImage(call), Handed::Image { start, .. }) => {
                self.answers[if start == 0 { 12 } else { 13 }] += 1;
                self.answers[14] += u64::from(matches(call) > 1);
            }
            (Call::WriteRecords(call), Handed::Written { length }) => {
                let settings = &call.settings;
                self.answers[16] += u64::from(settings.types().count() == TYPES);
                self.answers[17] += u64::from(length < call.buffer.lent().len());
                self.answers[18] += u64::from(!settings.is_within());
                self.answers[24] += u64::from(settings.senseless_pairs() > 0);
            }
            _ => {}
        }
    }

    fn note_osc(&mut self, call: &Osc, agreed: &Agreed) {
        let statuses = [0x00, 0x02, 0x04, 0x08, 0x10];
        let status = call.answer.lent()[0];
        if let Some(answer) = statuses.iter().position(|known| *known == status) {
            self.answers[answer] += 1;
        }
        if matches!(status, 0x00 | 0x10) {
            let query = call.capabilities.lent()[0] & 1 == 1;
            self.answers[if query { 5 } else { 6 }] += 1;
            let bridge = usize::from(call.bridge);
            let asked = Asked::new(call, &agreed.rows[bridge], agreed.before[bridge].handed);
            for (count, (_, comes_out_so)) in self.ways.iter_mut().zip(WAYS) {
                *count += u64::from(comes_out_so(&asked));
            }
        }
    }

    /// What is counted beside the numbers, with its counts.
    fn beside(&self) -> impl Iterator<Item = (&'static str, u64)> {
        let answers = ANSWERS.into_iter().zip(self.answers);
        let ways = WAYS.into_iter().map(|(name, _)| name).zip(self.ways);
        answers.chain(ways)
    }

    /// The listed numbers, and the answers, that came fewer than `LEAST` times.
    pub fn rare(&self) -> Vec<String> {
        let mut rare = Vec::new();
        for (kind, listed) in LISTED.iter().enumerate() {
            for number in *listed {
                let count = self.numbers[kind][*number];
                if count < LEAST {
                    rare.push(format!("{} gave {number} {count} times", KINDS[kind]));
                }
            }
        }
        for (answer, count) in self.beside() {
            if count < LEAST {
                rare.push(format!("{answer}: {count} times"));
            }
        }
        rare
    }
}

fn mixes_editions(rows: &[Row]) -> bool {
    rows.iter().any(|row| row.edition != rows[0].edition)
}

/// Whether the record's pair would change the payload sizes of Device Control.
fn asks_for_other_sizes(call: &RegisterValues) -> bool {
    let (slot, bridge_block) = (call.slot.lent(), call.bridge_block.lent());
    let [and_mask, or_mask] = blocks::masks(slot, bridge_block, DEVICE_CONTROL);
    let current = call.current.lent()[DEVICE_CONTROL];
    (((current & and_mask) | or_mask) ^ current) & PAYLOAD_SIZES != 0
}

/// How many images of the ROM have the asked fields, as far as its chain is sound.
fn matches(call: &FindImage) -> usize {
    let asked = [call.vendor, call.device, call.code_type];
    let images = roms::images(call.rom.lent());
    let matching = images.iter().filter(|image| image.fields() == asked);
    matching.count()
}

/// How many bytes the buffer has too few.
fn missing(call: &WriteRecords) -> usize {
    let room = call.buffer.lent().len();
    call.settings.bytes().saturating_sub(room)
}

impl fmt::Display for Counts {
    fn fmt(&self, f: &mut fmt::Formatter<'_>) -> fmt::Result {
        write!(f, "{:<16}", "number")?;
        for number in 0..NUMBERS {
            write!(f, "{number:>9}")?;
        }
        for (kind, numbers) in KINDS.iter().zip(&self.numbers) {
            write!(f, "\n{kind:<16}")?;
            for count in numbers {
                match count {
                    0 => write!(f, "{:>9}", "-")?,
                    _ => write!(f, "{count:>9}")?,
                }
            }
        }
        for (answer, count) in self.beside() {
            write!(f, "\n{answer:<31}{count:>9}")?;
        }
        Ok(())
    }
}
