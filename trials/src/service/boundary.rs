//! The proved library as C calls it.

use std::mem::{align_of, offset_of, size_of, transmute};
use std::ptr::{null, null_mut};

use slipwattle::sys::{self, BridgeNumber, SessionNumber};

use super::Service;
use crate::blocks;
use crate::buffer::{Buffer, Bytes, Item};
use crate::call::{
    Address, Call, FindImage, FindRecord, Locate, Osc, RegisterValues, Report, Reset, Start,
    WriteRecords,
};
use crate::given::{Given, Handed};
use crate::row::Row;
use crate::settings::{Settings, TYPES};

/// The table is an allocation of its own, so that a reading beside it can be seen.
pub struct Boundary {
    table: Box<sys::Table>,
}

impl Boundary {
    /// With the table with no bridges that a refused start gives.
    pub fn new() -> Boundary {
        let nothing = Start {
            mcfg: Vec::new().into(),
            rows: Vec::new().into(),
        };
        Boundary {
            table: Box::new(start(&nothing).table),
        }
    }

    /// The table itself, for those who set what a bridge permits and holds.
    pub fn table(&mut self) -> &mut sys::Table {
        &mut self.table
    }
}

impl Default for Boundary {
    fn default() -> Boundary {
        Boundary::new()
    }
}

/// The pointer to what is lent; NULL where the length is 0.
fn pointer<T: Item>(buffer: &Buffer<T>) -> *const T {
    let lent = buffer.lent();
    if lent.is_empty() {
        null()
    } else {
        lent.as_ptr()
    }
}

/// The same, to be changed.
fn pointer_mut<T: Item>(buffer: &mut Buffer<T>) -> *mut T {
    let lent = buffer.lent_mut();
    if lent.is_empty() {
        null_mut()
    } else {
        lent.as_mut_ptr()
    }
}

fn length<T: Item>(buffer: &Buffer<T>) -> usize {
    buffer.lent().len()
}

fn session(number: u8) -> SessionNumber {
    SessionNumber { number }
}

fn bridge(number: u8) -> BridgeNumber {
    BridgeNumber { number }
}

// Rows are lent as those of sys.
const _: () = {
    assert!(size_of::<Row>() == size_of::<sys::BridgeRow>());
    assert!(align_of::<Row>() == align_of::<sys::BridgeRow>());
    assert!(offset_of!(Row, permitted) == offset_of!(sys::BridgeRow, permitted));
    assert!(offset_of!(Row, segment) == offset_of!(sys::BridgeRow, segment));
    assert!(offset_of!(Row, owner) == offset_of!(sys::BridgeRow, owner));
    assert!(offset_of!(Row, first) == offset_of!(sys::BridgeRow, first_bus));
    assert!(offset_of!(Row, last) == offset_of!(sys::BridgeRow, last_bus));
    assert!(offset_of!(Row, kind) == offset_of!(sys::BridgeRow, kind));
    assert!(offset_of!(Row, edition) == offset_of!(sys::BridgeRow, edition));
};

fn start(call: &Start) -> sys::Started {
    let rows = pointer(&call.rows).cast::<sys::BridgeRow>();
    // SAFETY: each pointer leads to its length of bytes or of rows, and a row is laid out as sys has it.
    unsafe {
        sys::slipwattle_start(
            pointer(&call.mcfg),
            length(&call.mcfg),
            rows,
            length(&call.rows),
        )
    }
}

impl Service for Boundary {
    fn name(&self) -> &'static str {
        "proved library"
    }

    fn call(&mut self, call: &mut Call) -> Given {
        let (number, handed) = match call {
            Call::Start(call) => self.start(call),
            Call::Osc(call) => (self.osc(call), Handed::Nothing),
            Call::Reset(call) => (self.reset(call), Handed::Nothing),
            Call::Report(call) => self.report(call),
            Call::Address(call) => self.address(call),
            Call::Locate(call) => self.locate(call),
            Call::FindRecord(call) => find_record(call),
            Call::FindImage(call) => find_image(call),
            Call::WriteRecords(call) => write_records(call),
            Call::RegisterValues(call) => self.register_values(call),
        };
        Given { number, handed }
    }

    /// By a search for each type.
    fn read(&mut self, block: &Bytes) -> Result<Settings, u8> {
        let mut settings = Settings::default();
        for record_type in 0..TYPES {
            match find_record(&search(block, record_type)) {
                (0, Handed::Record { start, length, .. }) => {
                    let numbers = blocks::numbers(&block.lent()[start..][..length]);
                    settings.put(record_type, &numbers);
                }
                (9, _) => {}
                (number, _) => return Err(number),
            }
        }
        Ok(settings)
    }
}

impl Boundary {
    fn start(&mut self, call: &Start) -> (u8, Handed) {
        let started = start(call);
        *self.table = started.table;
        let bridges = started.table.count;
        (started.number, Handed::Table { bridges })
    }

    fn osc(&mut self, call: &mut Osc) -> u8 {
        // SAFETY: the table comes from a start, each pointer leads to its length of bytes, and each buffer is an allocation of its own.
        unsafe {
            sys::slipwattle_osc(
                &mut *self.table,
                session(call.session),
                bridge(call.bridge),
                call.revision,
                call.count,
                pointer(&call.uuid),
                length(&call.uuid),
                pointer(&call.capabilities),
                length(&call.capabilities),
                pointer_mut(&mut call.answer),
                length(&call.answer),
            )
        }
    }

    fn reset(&mut self, call: &Reset) -> u8 {
        let (session, bridge) = (session(call.session), bridge(call.bridge));
        // SAFETY: the table comes from a start.
        unsafe { sys::slipwattle_reset(&mut *self.table, session, bridge) }
    }

    fn report(&self, call: &Report) -> (u8, Handed) {
        let (session, bridge) = (session(call.session), bridge(call.bridge));
        // SAFETY: the table comes from a start.
        let reported = unsafe { sys::slipwattle_report(&*self.table, session, bridge) };
        let sys::Holding { held, supported } = reported.holding;
        (reported.number, Handed::Holding { held, supported })
    }

    fn address(&self, call: &Address) -> (u8, Handed) {
        // SAFETY: the table comes from a start.
        let addressed = unsafe {
            sys::slipwattle_address(
                &*self.table,
                session(call.session),
                bridge(call.bridge),
                call.bus,
                call.device,
                call.function,
                call.offset,
                call.width,
            )
        };
        (addressed.number, Handed::Address(addressed.address))
    }

    fn locate(&self, call: &Locate) -> (u8, Handed) {
        // SAFETY: the table comes from a start.
        let located =
            unsafe { sys::slipwattle_locate(&*self.table, session(call.session), call.address) };
        let place = located.place;
        let handed = Handed::Place {
            bridge: place.bridge.number,
            bus: place.bus,
            device: place.device,
            function: place.function,
            offset: place.offset,
        };
        (located.number, handed)
    }

    fn register_values(&self, call: &RegisterValues) -> (u8, Handed) {
        // SAFETY: the table comes from a start, and each pointer leads to its length of bytes or of numbers.
        let values = unsafe {
            sys::slipwattle_register_values(
                &*self.table,
                session(call.session),
                bridge(call.bridge),
                pointer(&call.slot),
                length(&call.slot),
                pointer(&call.bridge_block),
                length(&call.bridge_block),
                pointer(&call.current),
                length(&call.current),
            )
        };
        (values.number, Handed::Values(values.values))
    }
}

fn find_record(call: &FindRecord) -> (u8, Handed) {
    // SAFETY: each pointer leads to its length of bytes.
    let found = unsafe {
        sys::slipwattle_find_record(
            pointer(&call.slot),
            length(&call.slot),
            pointer(&call.bridge_block),
            length(&call.bridge_block),
            call.record_type,
        )
    };
    let handed = Handed::Record {
        in_slot: found.in_slot,
        start: found.start,
        length: found.size,
    };
    (found.number, handed)
}

fn find_image(call: &FindImage) -> (u8, Handed) {
    // SAFETY: the pointer leads to its length of bytes.
    let found = unsafe {
        sys::slipwattle_find_image(
            pointer(&call.rom),
            length(&call.rom),
            call.vendor,
            call.device,
            call.code_type,
        )
    };
    let handed = Handed::Image {
        start: found.start,
        length: found.size,
    };
    (found.number, handed)
}

fn search(block: &Bytes, record_type: usize) -> FindRecord {
    FindRecord {
        slot: Vec::new().into(),
        bridge_block: block.clone(),
        record_type: record_type as u32,
    }
}

// Settings are laid out as those of sys.
const _: () = {
    assert!(size_of::<Settings>() == size_of::<sys::Settings>());
    assert!(align_of::<Settings>() == align_of::<sys::Settings>());
    assert!(offset_of!(Settings, values) == offset_of!(sys::Settings, express));
    assert!(offset_of!(Settings, flags) == offset_of!(sys::Settings, has_pci));
};

/// The settings as sys has them.
pub fn as_lent(settings: &Settings) -> sys::Settings {
    // SAFETY: they are laid out so, and any numbers may stand there.
    unsafe { transmute::<Settings, sys::Settings>(*settings) }
}

fn write_records(call: &mut WriteRecords) -> (u8, Handed) {
    let settings = as_lent(&call.settings);
    let (pointer, length) = (pointer_mut(&mut call.buffer), length(&call.buffer));
    // SAFETY: the pointer leads to its length of bytes.
    let written = unsafe { sys::slipwattle_write_records(settings, pointer, length) };
    let length = written.length;
    (written.number, Handed::Written { length })
}
