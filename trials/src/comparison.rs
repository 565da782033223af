//! Runs a list on two programs and compares after every call.

use std::mem;
use std::panic::{AssertUnwindSafe, catch_unwind};

use crate::call::{Call, FindRecord, Report, WriteRecords};
use crate::given::{Given, Handed};
use crate::row::Row;
use crate::service::{Pair, Service};
use crate::settings::Settings;

/// The first difference that a list shows.
#[derive(Clone, Debug)]
pub struct Difference {
    /// The call after which it shows, counted from 0.
    pub at: usize,
    pub names: [&'static str; 2],
    pub what: What,
}

#[derive(Clone, Debug, PartialEq, Eq)]
pub enum What {
    /// The program on one side panicked.
    Panicked { side: usize },
    /// The number, or what is handed back beside it.
    Given([Given; 2]),
    /// A lent buffer, its guards included: both calls as they were left.
    Lent(Box<[Call; 2]>),
    /// The program on one side changed a buffer that it may only read, or a guard.
    Touched { side: usize, left: Box<Call> },
    /// A search for a record of this type in what was written.
    Searched { record_type: u32, given: [Given; 2] },
    /// What was written, read by the program on one side: other records than were asked for, or a refusal's number.
    Read {
        side: usize,
        read: Result<Settings, u8>,
    },
    /// What a bridge holds after the call, by report under its owner.
    Holding {
        bridge: u8,
        owner: u8,
        reports: [Given; 2],
    },
}

/// What is told of a call on which both programs agree.
pub struct Agreed<'a> {
    /// The call as it was left.
    pub call: &'a Call,
    pub given: Given,
    /// The rows of the last start.
    pub rows: &'a [Row],
    /// The reports on all bridges before it.
    pub before: &'a [Given],
    /// The reports on all bridges after it.
    pub reports: &'a [Given],
}

/// The first difference between the two programs on this list. `seen` is told of each call before it. A call that one of them does
/// not take is left out.
pub fn compare(list: &[Call], pair: &mut Pair, seen: &mut dyn FnMut(Agreed)) -> Option<Difference> {
    let names = [pair.left.name(), pair.right.name()];
    let mut rows: Vec<Row> = Vec::new();
    let mut before = Vec::new();
    let mut reports = Vec::new();
    for (at, call) in list.iter().enumerate() {
        if !pair.takes(call) {
            continue;
        }
        if let Call::Start(start) = call {
            let lent = start.rows.lent().iter();
            rows = lent.take(usize::from(u8::MAX)).copied().collect();
        }
        mem::swap(&mut before, &mut reports);
        let checked = compare_call(call, pair).and_then(|(left, given)| {
            compare_holdings(&rows, pair, &mut reports)?;
            Ok((left, given))
        });
        match checked {
            Err(what) => return Some(Difference { at, names, what }),
            Ok((left, given)) => seen(Agreed {
                call: &left,
                given,
                rows: &rows,
                before: &before,
                reports: &reports,
            }),
        }
    }
    None
}

/// Makes one call on both sides, and gives it as it was left.
pub fn compare_call(call: &Call, pair: &mut Pair) -> Result<(Call, Given), What> {
    let mut calls = [call.clone(), call.clone()];
    let [left, right] = &mut calls;
    let given = [
        made(&mut *pair.left, left).ok_or(What::Panicked { side: 0 })?,
        made(&mut *pair.right, right).ok_or(What::Panicked { side: 1 })?,
    ];
    if given[0] != given[1] {
        return Err(What::Given(given));
    }
    for (side, left) in calls.iter().enumerate() {
        if !left.keeps_what_is_read(call) {
            return Err(What::Touched {
                side,
                left: Box::new(left.clone()),
            });
        }
    }
    if calls[0] != calls[1] {
        return Err(What::Lent(Box::new(calls)));
    }
    let [left, _] = calls;
    if let (Call::WriteRecords(write), Handed::Written { length }, 0) =
        (&left, given[0].handed, given[0].number)
    {
        compare_written(write, length, pair)?;
    }
    Ok((left, given[0]))
}

/// Searches the bytes that were written for types 0 to 3, and reads them.
fn compare_written(write: &WriteRecords, length: usize, pair: &mut Pair) -> Result<(), What> {
    let mut block = write.buffer.clone();
    block.replace(write.buffer.lent().get(..length).unwrap_or_default());
    let mut services = [&mut pair.left, &mut pair.right];
    for record_type in 0..=3 {
        let search = Call::from(FindRecord {
            slot: Vec::new().into(),
            bridge_block: block.clone(),
            record_type,
        });
        let [left, right] = &mut services;
        let given = [
            made(&mut ***left, &mut search.clone()).ok_or(What::Panicked { side: 0 })?,
            made(&mut ***right, &mut search.clone()).ok_or(What::Panicked { side: 1 })?,
        ];
        if given[0] != given[1] {
            return Err(What::Searched { record_type, given });
        }
    }
    for (side, service) in services.into_iter().enumerate() {
        let read = service.read(&block);
        if read != Ok(write.settings.as_read()) {
            return Err(What::Read { side, read });
        }
    }
    Ok(())
}

/// What the call gives, or nothing if the program panics. The service is not used after that.
fn made(service: &mut dyn Service, call: &mut Call) -> Option<Given> {
    catch_unwind(AssertUnwindSafe(|| service.call(call))).ok()
}

/// Reports on every bridge under its owner, and on one bridge number after them.
fn compare_holdings(rows: &[Row], pair: &mut Pair, reports: &mut Vec<Given>) -> Result<(), What> {
    reports.clear();
    for bridge in 0..=rows.len() {
        let owner = rows.get(bridge).map_or(0, |row| row.owner);
        let bridge = bridge as u8;
        let report = |service: &mut dyn Service| {
            let session = owner;
            service.call(&mut Report { session, bridge }.into())
        };
        let both = [report(&mut *pair.left), report(&mut *pair.right)];
        if both[0] != both[1] {
            return Err(What::Holding {
                bridge,
                owner,
                reports: both,
            });
        }
        reports.push(both[0]);
    }
    Ok(())
}
