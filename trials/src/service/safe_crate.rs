//! The safe crate over the proved library. Its types have no room for a kind or an edition but the two, and less for a place than the C
//! boundary's.

use slipwattle::{BridgeKind, BridgeRow, Edition, Place};

use super::Service;
use super::program::{image_position, program, record_position};
use crate::buffer::Bytes;
use crate::call::{
    Address, Call, FindImage, FindRecord, Locate, Osc, RegisterValues, Report, Reset, Start,
    WriteRecords,
};
use crate::editions::{EDITION_3_3, OLD_EDITION};
use crate::given::{Given, Handed};
use crate::mcfg;
use crate::random::Random;
use crate::row::{CONVENTIONAL, EXPRESS, Row};
use crate::settings::Settings;

program!(SafeCrate, slipwattle);

impl Service for SafeCrate {
    fn name(&self) -> &'static str {
        "safe crate"
    }

    fn takes(&self, call: &Call) -> bool {
        match call {
            Call::Start(call) => bridge_rows(call).is_some(),
            Call::Address(call) => place(call).is_some(),
            _ => true,
        }
    }

    fn call(&mut self, call: &mut Call) -> Given {
        self.made(call)
    }

    fn read(&mut self, block: &Bytes) -> Result<Settings, u8> {
        read_records(block)
    }
}

/// The crate gives no table with a refused start, so the calls after one run on a started table with no rows.
fn no_bridges() -> Table {
    let no_entries = mcfg::table(&mut Random::new(0), &[]);
    Table::start(&no_entries, &[]).expect("no entries and no rows are sound")
}

fn start(call: &Start) -> Result<Table, Refusal> {
    let rows = bridge_rows(call).expect("the service takes the call");
    Table::start(call.mcfg.lent(), &rows)
}

/// The rows as the crate takes them, in an allocation of exactly their length.
fn bridge_rows(call: &Start) -> Option<Box<[BridgeRow]>> {
    call.rows.lent().iter().map(bridge_row).collect()
}

fn bridge_row(row: &Row) -> Option<BridgeRow> {
    Some(BridgeRow {
        permitted: row.permitted,
        segment: row.segment,
        owner: SessionNumber(row.owner),
        first_bus: row.first,
        last_bus: row.last,
        kind: match row.kind {
            EXPRESS => BridgeKind::Express,
            CONVENTIONAL => BridgeKind::Conventional,
            _ => return None,
        },
        edition: match row.edition {
            OLD_EDITION => Edition::V3_0,
            EDITION_3_3 => Edition::V3_3,
            _ => return None,
        },
    })
}

fn address(table: &Table, call: &Address) -> Result<u64, Refusal> {
    let place = place(call).expect("the service takes the call");
    table.address(SessionNumber(call.session), place, call.width)
}

fn place(call: &Address) -> Option<Place> {
    Some(Place {
        bridge: BridgeNumber(call.bridge),
        bus: call.bus.try_into().ok()?,
        device: call.device.try_into().ok()?,
        function: call.function.try_into().ok()?,
        offset: call.offset.try_into().ok()?,
    })
}

/// How many bytes the block has. It is a part of the buffer, at its start; one that lies elsewhere has `usize::MAX`.
fn write(records: &Records, buffer: &mut [u8]) -> Result<usize, Refusal> {
    let start = buffer.as_ptr();
    let block = records.write(buffer)?;
    if block.as_ptr() == start {
        Ok(block.len())
    } else {
        Ok(usize::MAX)
    }
}

fn read(block: &[u8]) -> Result<Records, Refusal> {
    Records::read(block)
}
