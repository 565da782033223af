//! The reference implementation.

use reference::BridgeRow;

use super::Service;
use super::program::{image_position, program, record_position};
use crate::buffer::Bytes;
use crate::call::{
    Address, Call, FindImage, FindRecord, Locate, Osc, RegisterValues, Report, Reset, Start,
    WriteRecords,
};
use crate::given::{Given, Handed};
use crate::row::Row;
use crate::settings::Settings;

program!(Reference, reference);

impl Service for Reference {
    fn name(&self) -> &'static str {
        "reference"
    }

    fn call(&mut self, call: &mut Call) -> Given {
        self.made(call)
    }

    fn read(&mut self, block: &Bytes) -> Result<Settings, u8> {
        read_records(block)
    }
}

fn no_bridges() -> Table {
    Table::empty()
}

fn start(call: &Start) -> Result<Table, Refusal> {
    let rows: Vec<BridgeRow> = call.rows.lent().iter().map(bridge_row).collect();
    Table::start(call.mcfg.lent(), &rows)
}

fn bridge_row(row: &Row) -> BridgeRow {
    BridgeRow {
        owner: SessionNumber(row.owner),
        segment: row.segment,
        first_bus: row.first,
        last_bus: row.last,
        kind: row.kind,
        permitted: row.permitted,
        edition: row.edition,
    }
}

fn address(table: &Table, call: &Address) -> Result<u64, Refusal> {
    table.address(
        SessionNumber(call.session),
        BridgeNumber(call.bridge),
        call.bus,
        call.device,
        call.function,
        call.offset,
        call.width,
    )
}

fn write(records: &Records, buffer: &mut [u8]) -> Result<usize, Refusal> {
    reference::write_records(*records, buffer)
}

fn read(block: &[u8]) -> Result<Records, Refusal> {
    reference::read_records(block)
}
