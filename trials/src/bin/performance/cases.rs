//! The calls that are compared, each with its inputs.

use std::hint::black_box;

use slipwattle::sys;
use trials::editions::SUPPORT_7;
use trials::mcfg::CHECKSUM;
use trials::requests::UUID;

use crate::inputs::{
    BRIDGE, Tables, bridge, example_block, falling_table, long_block, longest_block, mcfg_table,
    rows, session, tables, tables_3_3, their_rows, type_2,
};
use crate::requests::{Request, our_osc, tables_that_hold, taking, their_osc};
use crate::roms;
use crate::writer;

/// What is done with each case: the proved library's call and the reference's.
pub trait Runner {
    /// Whether anything is done with this case; else its inputs need not be made.
    fn wants(&self, _: &str) -> bool {
        true
    }

    fn case<A, B>(
        &mut self,
        name: &'static str,
        ours: impl FnMut() -> A,
        theirs: impl FnMut() -> B,
    );
}

pub fn all(run: &mut impl Runner) {
    starts(run);
    oscs(run);
    oscs_3_3(run);
    reset(run);
    report(run, "report", BRIDGE);
    report(run, "report, not the owner: refusal 2", BRIDGE + 1);
    let bus = 4 * u32::from(BRIDGE) + 1;
    address(run, "address", bus, 0x10);
    address(run, "address, offset 4094: refusal 5", bus, 4094);
    address(run, "address, bus outside: refusal 4", 0, 0x10);
    locate(run, "address read back, the first of 64 bridges", 0, 0);
    locate(run, "address read back, the last of 64 bridges", 63, 63);
    locate(
        run,
        "address read back, another session's: refusal 4",
        3,
        63,
    );
    records(run);
    roms::images(run);
    writer::writes(run);
    register_values(run, "register values, AER held, 71 bytes", 0x1F, &type_2());
    register_values(
        run,
        "register values, AER not held, 71 bytes",
        0x11,
        &type_2(),
    );
    register_values(
        run,
        "register values, AER not held, 1,004 bytes",
        0x11,
        &long_block(81),
    );
    register_values(
        run,
        "register values, AER not held, 4,096 bytes",
        0x11,
        &longest_block(),
    );
}

fn starts(run: &mut impl Runner) {
    let [one, some, many] = [1, 16, 64].map(mcfg_table);
    let in_one = rows(64, true);
    let in_many = rows(64, false);
    start(run, "start, 1 entry, 1 row", &one, &in_one[..1]);
    start(run, "start, 1 entry, 16 rows", &one, &in_one[..16]);
    start(run, "start, 1 entry, 64 rows", &one, &in_one);
    start(run, "start, 16 entries, 16 rows", &some, &in_many[..16]);
    start(run, "start, 64 entries, 64 rows", &many, &in_many);
    let falling = "start, 64 entries from the last to the first, 64 rows";
    start(run, falling, &falling_table(64), &in_many);
    let mut wrong_sum = many.clone();
    wrong_sum[CHECKSUM] ^= 1;
    start(
        run,
        "start, wrong checksum, 64 entries: refusal 6",
        &wrong_sum,
        &in_many,
    );
    let mut shared_bus = in_one.clone();
    shared_bus[63].first_bus -= 1;
    start(
        run,
        "start, a bus shared by the last two of 64 rows: refusal 7",
        &one,
        &shared_bus,
    );
}

fn start(run: &mut impl Runner, name: &'static str, m: &[u8], r: &[sys::BridgeRow]) {
    let theirs = their_rows(r);
    run.case(
        name,
        // SAFETY: pointers and lengths of two slices.
        || unsafe { sys::slipwattle_start(m.as_ptr(), m.len(), r.as_ptr(), r.len()) },
        // Beside a refusal document 01 asks for a table with no bridges.
        || {
            let started = reference::Table::start(m, &theirs);
            if started.is_err() {
                black_box(&reference::Table::empty());
            }
            started
        },
    );
}

fn oscs(run: &mut impl Runner) {
    let mut unknown = UUID;
    unknown[15] ^= 1;
    let query = Request {
        dwords: vec![1, 0x1F, 0x1F],
        ..taking(0)
    };
    let unknown = Request {
        uuid: unknown,
        ..taking(0x1F)
    };
    let eight = Request {
        dwords: vec![0; 8],
        ..taking(0)
    };
    let foreign = Request {
        session: BRIDGE + 1,
        ..taking(0x1F)
    };
    osc(run, "_OSC, query", tables(), &query);
    let all = taking(0x1F);
    osc(run, "_OSC, taking call", tables(), &all);
    let masked = "_OSC, taking call, some bits masked";
    osc(run, masked, tables(), &taking(0x3F));
    let alone = "_OSC, taking call, bit 4 held and not asked for";
    osc(run, alone, tables_that_hold(0x10), &taking(0x0D));
    osc(run, "_OSC, unknown UUID: status 0x04", tables(), &unknown);
    osc(run, "_OSC, Count 8: status 0x02", tables(), &eight);
    osc(run, "_OSC, not the owner: refusal 2", tables(), &foreign);
}

/// On a row of edition 3.3.
fn oscs_3_3(run: &mut impl Runner) {
    let dwords = |status, support, control| Request {
        dwords: vec![status, support, control],
        ..taking(0)
    };
    let (all, support) = (0x3FF, 0x1FF);
    let query = dwords(1, support, all);
    osc(run, "_OSC on a 3.3 row, query", tables_3_3(), &query);
    let taking_all = dwords(0, support, all);
    osc(
        run,
        "_OSC on a 3.3 row, taking call",
        tables_3_3(),
        &taking_all,
    );
    let masked = "_OSC on a 3.3 row, taking call, no support bit 7";
    let undeclared = dwords(0, support & !SUPPORT_7, all);
    osc(run, masked, tables_3_3(), &undeclared);
    let alone = "_OSC on a 3.3 row, taking call, bit 4 not asked for";
    osc(run, alone, tables_3_3(), &dwords(0, support, all & !0x10));
}

fn osc(run: &mut impl Runner, name: &'static str, mut t: Tables, q: &Request) {
    let capabilities = q.capabilities();
    let mut answers = [vec![0; capabilities.len()], vec![0; capabilities.len()]];
    let [a, b] = &mut answers;
    run.case(
        name,
        || our_osc(&mut t.ours, q, &capabilities, a),
        || their_osc(&mut t.theirs, q, &capabilities, b),
    );
}

fn reset(run: &mut impl Runner) {
    let mut t = tables();
    let (s, n) = (session(BRIDGE), bridge(BRIDGE));
    run.case(
        "reset",
        // SAFETY: a started table.
        || unsafe { sys::slipwattle_reset(&mut t.ours, s.0, n.0) },
        || t.theirs.reset(s.1, n.1),
    );
}

fn report(run: &mut impl Runner, name: &'static str, number: u8) {
    let t = tables();
    let (s, n) = (session(number), bridge(BRIDGE));
    run.case(
        name,
        // SAFETY: a started table.
        || unsafe { sys::slipwattle_report(&t.ours, s.0, n.0) },
        || t.theirs.report(s.1, n.1),
    );
}

fn address(run: &mut impl Runner, name: &'static str, bus: u32, offset: u32) {
    let t = tables();
    let (s, n) = (session(BRIDGE), bridge(BRIDGE));
    run.case(
        name,
        // SAFETY: a started table.
        || unsafe { sys::slipwattle_address(&t.ours, s.0, n.0, bus, 2, 3, offset, 4) },
        || t.theirs.address(s.1, n.1, bus, 2, 3, offset, 4),
    );
}

/// An address in the window of a bridge, read back under a session.
fn locate(run: &mut impl Runner, name: &'static str, owner: u8, bridge: u8) {
    let t = tables();
    let s = session(owner);
    let address = ((u64::from(bridge) + 1) << 32) + (u64::from(bridge) << 22) + 0x13010;
    run.case(
        name,
        // SAFETY: a started table.
        || unsafe { sys::slipwattle_locate(&t.ours, s.0, address) },
        || t.theirs.locate(s.1, address),
    );
}

fn records(run: &mut impl Runner) {
    let (short, long) = (example_block(), long_block(81));
    let cut = &long[..long.len() - 1];
    let mut senseless = type_2();
    senseless[67] |= 1; // in the last OR mask, not in its AND mask
    find_record(run, "record search, 42 bytes", &short, 1);
    find_record(run, "record search, 71 bytes", &type_2(), 2);
    find_record(run, "record search, 1,004 bytes in 84 fields", &long, 2);
    let longest = "record search, 4,096 bytes in 365 fields";
    find_record(run, longest, &longest_block(), 2);
    find_record(
        run,
        "record search, 1,003 bytes, the last field cut: refusal 8",
        cut,
        2,
    );
    let last_pair = "record search, 71 bytes, the last pair senseless: refusal 8";
    find_record(run, last_pair, &senseless, 2);
    find_record(
        run,
        "record search, 42 bytes, no such record: refusal 9",
        &short,
        2,
    );
}

fn find_record(run: &mut impl Runner, name: &'static str, slot: &[u8], record_type: u32) {
    let block: &[u8] = &[];
    run.case(
        name,
        // SAFETY: pointers and lengths of two slices.
        || unsafe {
            sys::slipwattle_find_record(
                slot.as_ptr(),
                slot.len(),
                block.as_ptr(),
                block.len(),
                record_type,
            )
        },
        || reference::find_record(slot, block, record_type),
    );
}

fn register_values(run: &mut impl Runner, name: &'static str, control: u32, slot: &[u8]) {
    let t = tables_that_hold(control);
    let (s, n) = (session(BRIDGE), bridge(BRIDGE));
    let current: [u32; 8] = [0x2110, 1, 2, 3, 0x2110, 5, 6, 7];
    let block: &[u8] = &[];
    run.case(
        name,
        // SAFETY: a started table, pointers and lengths of slices.
        || unsafe {
            sys::slipwattle_register_values(
                &t.ours,
                s.0,
                n.0,
                slot.as_ptr(),
                slot.len(),
                block.as_ptr(),
                block.len(),
                current.as_ptr(),
                current.len(),
            )
        },
        || t.theirs.register_values(s.1, n.1, slot, block, &current),
    );
}
