//! Lists of calls: one start and some tens of calls around what was started.

use crate::blocks;
use crate::call::{Call, FindRecord, Locate, RegisterValues, Report, Reset, Start};
use crate::editions::EDITION_3_3;
use crate::mcfg::{self, Entry, MOST_ENTRIES};
use crate::places;
use crate::random::Random;
use crate::requests;
use crate::roms;
use crate::row::Row;
use crate::rows::{self, HIGHEST_OWNER, MOST_ROWS};
use crate::settings;

/// A sound start, around which the calls of a list are drawn, whether or not the list starts so.
pub struct Plan {
    pub entries: Vec<Entry>,
    pub rows: Vec<Row>,
    /// Addresses that earlier calls of the list asked for.
    asked: Vec<u64>,
}

impl Plan {
    pub fn new(random: &mut Random) -> Plan {
        let few = [0, 1, 1, 1, 1, 2, 2, 2, 2, 3, 3, 3, 4, 4, 8];
        let count = if random.one_in(16) {
            random.pick(&[16, MOST_ENTRIES - 1, MOST_ENTRIES])
        } else {
            random.pick(&few)
        };
        let entries = mcfg::sound_entries(random, count);
        let any = random.between(0, MOST_ROWS);
        let most = random.pick(&[1, 2, 3, 4, 6, MOST_ROWS, any]);
        let rows = rows::sound_rows(random, &entries, most);
        Plan {
            entries,
            rows,
            asked: Vec::new(),
        }
    }

    fn start(&self, random: &mut Random, spoil_mcfg: bool, spoil_rows: bool) -> Call {
        let mcfg = match spoil_mcfg {
            true => mcfg::spoiled_table(random, &self.entries),
            false => mcfg::table(random, &self.entries),
        };
        let rows = match spoil_rows {
            true => rows::spoiled_rows(random, &self.entries, &self.rows),
            false => self.rows.clone(),
        };
        let start = Start {
            mcfg: mcfg.into(),
            rows: rows.into(),
        };
        start.into()
    }

    /// A session and a bridge number: most times a bridge and its owner.
    fn names(&self, random: &mut Random) -> (u8, u8) {
        let count = self.rows.len();
        let bridge = match random.below(16) {
            0 => count as u8,
            1 => random.pick(&[count as u8 + 1, 64, 65, 128, 255]),
            _ => random.below(count.max(1)) as u8,
        };
        let owner = self
            .rows
            .get(usize::from(bridge))
            .map_or(0, |row| row.owner);
        let session = match random.below(10) {
            0 => random.pick(&[
                owner + 1,
                owner.wrapping_sub(1),
                owner ^ 1,
                owner | 0x40,
                255,
            ]),
            1 | 2 => random.between(0, usize::from(HIGHEST_OWNER) + 1) as u8,
            _ => owner,
        };
        (session, bridge)
    }

    fn next_call(&mut self, random: &mut Random) -> Call {
        let (session, bridge) = self.names(random);
        match random.below(46) {
            0..12 => requests::any_call(random, session, bridge).into(),
            12..14 => Reset { session, bridge }.into(),
            14..16 => Report { session, bridge }.into(),
            16..20 => self.address(random, session, bridge),
            20..23 => self.locate(random, session),
            23..26 => find_record(random),
            26..29 => roms::any_search(random).into(),
            29..33 => settings::any_write(random).into(),
            _ => register_values(random, session, bridge),
        }
    }

    fn address(&mut self, random: &mut Random, session: u8, bridge: u8) -> Call {
        let anywhere = Row::express(0, 0, 0, 255);
        let row = self.rows.get(usize::from(bridge)).unwrap_or(&anywhere);
        let call = places::any_address(random, session, bridge, row);
        if let Some(entry) = row.entry(&self.entries) {
            self.asked.push(places::address_of(entry, &call));
        }
        call.into()
    }

    fn locate(&self, random: &mut Random, session: u8) -> Call {
        let row = self.rows.get(random.below(self.rows.len().max(1)));
        let near = row.and_then(|row| Some((row, row.entry(&self.entries)?)));
        let owner = near.map_or(session, |(row, _)| row.owner);
        let session = random.pick(&[owner, owner, session]);
        let address = match (random.below(8), near) {
            (0, _) | (_, None) => random.pick(&[0, 1, u64::MAX, 1 << 63, 0xE000_0000]),
            (1, _) => random.long(),
            (2..5, _) if !self.asked.is_empty() => random.pick(&self.asked),
            (_, Some((row, entry))) => places::near_address(random, entry, row),
        };
        Locate { session, address }.into()
    }
}

fn find_record(random: &mut Random) -> Call {
    let (slot, bridge_block) = blocks::pair(random);
    let sound = random.below(3) as u32;
    let other = random.pick(&[3, 255, 256, 0x100 + sound, 0x1_0000 + sound, u32::MAX]);
    let call = FindRecord {
        slot: slot.into(),
        bridge_block: bridge_block.into(),
        record_type: if random.one_in(5) { other } else { sound },
    };
    call.into()
}

fn register_values(random: &mut Random, session: u8, bridge: u8) -> Call {
    let (slot, bridge_block) = blocks::pair(random);
    let length = if random.one_in(6) {
        random.pick(&[0, 7, 9])
    } else {
        8
    };
    let mut current: Vec<u32> = (0..length).map(|_| random.word()).collect();
    for control in current.iter_mut().skip(4).take(2) {
        *control &= 0xFFFF;
        if random.one_in(8) {
            *control = random.pick(&[0xFFFF, 0x1_0000, u32::MAX]);
        }
    }
    let call = RegisterValues {
        session,
        bridge,
        slot: slot.into(),
        bridge_block: bridge_block.into(),
        current: current.into(),
    };
    call.into()
}

/// A list of calls. Half of the lists start a table; the others are refused, as a rule, and are short.
pub fn any_list(random: &mut Random) -> Vec<Call> {
    let mut plan = Plan::new(random);
    let spoil_mcfg = random.one_in(4);
    let spoil_rows = random.one_in(if spoil_mcfg { 8 } else { 3 });
    let mut list = vec![plan.start(random, spoil_mcfg, spoil_rows)];
    let calls = if spoil_mcfg || spoil_rows {
        random.between(2, 6)
    } else {
        random.between(10, 54)
    };
    if calls > 6 {
        take_control(random, &plan, &mut list);
    }
    for _ in 0..calls {
        list.push(plan.next_call(random));
    }
    list
}

/// A taking call, or some, on each of a few bridges, or on about 8 of many, so that register values are computed with AER and without.
fn take_control(random: &mut Random, plan: &Plan, list: &mut Vec<Call>) {
    for (bridge, row) in plan.rows.iter().enumerate() {
        if random.below(plan.rows.len()) >= 8 {
            continue;
        }
        let dwords = match row.edition {
            EDITION_3_3 => requests::taking_3_3(random),
            _ => vec![[0, random.word(), random.pick(&[0x1F, 0x17, 0x11, 0x19])]],
        };
        let calls = dwords.into_iter().map(|[status, support, control]| {
            requests::right_call(row.owner, bridge as u8, status, support, control).into()
        });
        list.extend(calls);
    }
}
