//! Every line of document 01's "Errors we have seen".

use reference::Masks;
use trials::blocks::{self, DEVICE_CONTROL, PAYLOAD_SIZES};
use trials::call::{Call, FindRecord, Report};
use trials::editions::{Asked, Outcome};
use trials::exhaustive::registers;
use trials::given::{Given, Handed};
use trials::mcfg;
use trials::requests::{PRINTED_UUID, UUID, dword};
use trials::service::Service;

use crate::regranted::regranted;
use crate::sizes::kept;
use crate::wrong::{Wrong, found, found_exhaustively, judged, pair, short_names};

const AER: u32 = 1 << 3;

fn drops_held_bits(asked: &Asked) -> Outcome {
    let outcome = asked.outcome();
    match asked.query {
        true => outcome,
        false => Outcome {
            held: outcome.granted,
            ..outcome
        },
    }
}

#[test]
fn a_held_bit_dropped_because_a_later_call_left_it_out() {
    let found = found(|| pair(|wrong, call| regranted(wrong, call, drops_held_bits)));
    assert_eq!(short_names(&found), ["start", "osc", "osc"]);
}

fn takes_on_a_query(wrong: &mut Wrong, call: &mut Call) -> Given {
    let Call::Osc(query) = call else {
        return wrong.reference.call(call);
    };
    let mut taking = query.clone();
    if let Some(status) = taking.capabilities.lent_mut().first_mut() {
        *status &= !1;
    }
    let mut made = taking.into();
    let given = wrong.reference.call(&mut made);
    if let Call::Osc(taking) = made {
        query.answer = taking.answer;
    }
    given
}

#[test]
fn the_table_changed_on_a_query() {
    let found = found(|| pair(takes_on_a_query));
    assert_eq!(short_names(&found), ["start", "osc"]);
}

fn subtracts_start_bus(wrong: &mut Wrong, call: &mut Call) -> Given {
    let mut given = wrong.reference.call(call);
    if let (0, Call::Address(place), Some(start), Handed::Address(address)) =
        (given.number, call, &wrong.start, &mut given.handed)
    {
        let row = start.rows.lent()[usize::from(place.bridge)];
        let entries = mcfg::read(start.mcfg.lent());
        let entry = row.entry(&entries).expect("the row is sound");
        *address -= u64::from(entry.start) * mcfg::BUS_BYTES;
    }
    given
}

#[test]
fn the_start_bus_subtracted() {
    let found = found(|| pair(subtracts_start_bus));
    assert_eq!(short_names(&found), ["start", "address"]);
    let why = found_exhaustively(|| pair(subtracts_start_bus));
    assert!(why.contains("call 1: address"), "{why}");
}

fn accepts_printed_uuid(wrong: &mut Wrong, call: &mut Call) -> Given {
    let printed = matches!(call, Call::Osc(osc) if osc.uuid.lent() == PRINTED_UUID);
    if let (true, Call::Osc(osc)) = (printed, &mut *call) {
        osc.uuid.replace(&UUID);
    }
    let given = wrong.reference.call(call);
    if let (true, Call::Osc(osc)) = (printed, call) {
        osc.uuid.replace(&PRINTED_UUID);
    }
    given
}

#[test]
fn the_uuid_in_printed_order_accepted() {
    let found = found(|| pair(accepts_printed_uuid));
    assert_eq!(short_names(&found), ["start", "osc"]);
}

fn grants_hot_plug_with_a_forbidden_bit_4(wrong: &mut Wrong, call: &mut Call) -> Given {
    let given = wrong.reference.call(call);
    if let (Call::Osc(osc), Some(start)) = (call, &wrong.start)
        && judged(given, osc.answer.lent())
    {
        let row = start.rows.lent()[usize::from(osc.bridge)];
        let requested = dword(osc.capabilities.lent(), 2);
        if row.permitted & 0x11 == 0x01 && requested & 0x11 == 0x11 {
            osc.answer.lent_mut()[8] |= 1;
        }
    }
    given
}

#[test]
fn hot_plug_granted_on_a_requested_but_forbidden_bit_4() {
    let found = found(|| pair(grants_hot_plug_with_a_forbidden_bit_4));
    assert_eq!(short_names(&found), ["start", "osc"]);
}

fn ors_before_it_ands(wrong: &mut Wrong, call: &mut Call) -> Given {
    let mut given = wrong.reference.call(call);
    let (Call::RegisterValues(asked), Handed::Values(values), 0) =
        (call, &mut given.handed, given.number)
    else {
        return given;
    };
    let (session, bridge) = (asked.session, asked.bridge);
    let report = wrong.reference.call(&mut Report { session, bridge }.into());
    let aer = matches!(report.handed, Handed::Holding { held, .. } if held & AER != 0);
    for (index, value) in values.iter_mut().enumerate() {
        if !aer || matches!(index, 4 | 5) {
            let [and, or] = blocks::masks(asked.slot.lent(), asked.bridge_block.lent(), index);
            let current = asked.current.lent()[index];
            let stay = match index {
                DEVICE_CONTROL => PAYLOAD_SIZES,
                _ => 0,
            };
            *value = kept(stay, current, (current | or) & and);
        }
    }
    given
}

/// The masks of a sound block give the same in either order (document 02, h). It shows in the formula by itself, at the starred line.
#[test]
fn or_before_and() {
    registers::bits(|| pair(ors_before_it_ands)).unwrap();
    let (and, or) = (0xFFFF_FFF0, 0x6);
    let value = Masks { and, or }.new_value(0x2110);
    assert_eq!(value, 0x2116);
    assert_ne!(value, (0x2110 | or) & and);
}

fn searches_the_bridges_block_too(wrong: &mut Wrong, call: &mut Call) -> Given {
    let given = wrong.reference.call(call);
    match (given.number, call) {
        (9, Call::FindRecord(asked)) => {
            let instead = FindRecord {
                slot: Vec::new().into(),
                ..asked.clone()
            };
            wrong.reference.call(&mut instead.into())
        }
        _ => given,
    }
}

#[test]
fn the_bridges_block_searched_when_the_slots_has_no_such_record() {
    let found = found(|| pair(searches_the_bridges_block_too));
    assert_eq!(short_names(&found), ["find_record"]);
}
