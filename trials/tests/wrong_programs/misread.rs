//! Rules of document 01 misread: _OSC, places, records and register values.

use reference::Refusal;
use trials::blocks;
use trials::call::{Call, Osc, Report};
use trials::given::{Given, Handed};
use trials::part::Part;
use trials::requests::UUID;
use trials::service::{Pair, Service};

use crate::wrong::{Wrong, found, instead, last_osc, pair, short_names};

/// The reference with another answer to an _OSC call that it does not refuse.
fn answered(wrong: &mut Wrong, call: &mut Call, change: fn(&mut Osc)) -> Given {
    let given = wrong.reference.call(call);
    if let (0, Call::Osc(osc)) = (given.number, call) {
        change(osc);
    }
    given
}

/// The simplest _OSC call that shows the wrong rule.
fn found_osc(make: fn() -> Pair) -> Osc {
    last_osc(&found(make), &["start", "osc"])
}

fn takes_any_uuid(call: &mut Call) {
    if let Call::Osc(Osc { uuid, .. }) = call
        && uuid.lent().len() == UUID.len()
    {
        uuid.replace(&UUID);
    }
}

#[test]
fn any_uuid_of_16_bytes_recognised() {
    let osc = found_osc(|| pair(|wrong, call| instead(wrong, call, takes_any_uuid)));
    assert_eq!(osc.uuid.lent(), [0; 16]);
}

fn takes_longer_capabilities(call: &mut Call) {
    if let Call::Osc(osc) = call {
        let mut read = osc.capabilities.lent().to_vec();
        read.truncate(4 * osc.count as usize);
        osc.capabilities.replace(&read);
    }
}

#[test]
fn a_capability_length_of_at_least_4_times_count() {
    let osc = found_osc(|| pair(|wrong, call| instead(wrong, call, takes_longer_capabilities)));
    assert_eq!(osc.capabilities.lent().len(), 4 * osc.count as usize + 1);
}

fn fails_an_unknown_uuid(osc: &mut Osc) {
    if let [status @ 0x04, ..] = osc.answer.lent_mut() {
        *status = 0x02;
    }
}

#[test]
fn status_2_for_an_unknown_uuid() {
    let osc = found_osc(|| pair(|wrong, call| answered(wrong, call, fails_an_unknown_uuid)));
    assert_eq!(osc.uuid.lent(), [0; 16]);
}

fn reads_the_revision_first(osc: &mut Osc) {
    if let ([status @ 0x04, ..], 0 | 2..) = (osc.answer.lent_mut(), osc.revision) {
        *status = 0x08;
    }
}

#[test]
fn the_revision_before_the_uuid() {
    let osc = found_osc(|| pair(|wrong, call| answered(wrong, call, reads_the_revision_first)));
    assert_eq!((osc.revision, osc.uuid.lent()), (0, &[0; 16][..]));
}

fn keeps_later_dwords(osc: &mut Osc) {
    if let [0x02 | 0x04 | 0x08, _, _, _, later @ ..] = osc.answer.lent_mut() {
        later.copy_from_slice(&osc.capabilities.lent()[4..]);
    }
}

#[test]
fn later_dwords_of_an_error_answer_kept_from_the_request() {
    let osc = found_osc(|| pair(|wrong, call| answered(wrong, call, keeps_later_dwords)));
    assert_eq!(osc.capabilities.lent().iter().sum::<u8>(), 1);
}

/// The width of the simplest place that shows the wrong rule.
fn found_width(make: fn() -> Pair) -> u32 {
    let found = found(make);
    assert_eq!(short_names(&found), ["start", "address"]);
    match found.list.last() {
        Some(Call::Address(address)) => address.width,
        _ => panic!("{}", found.report()),
    }
}

fn takes_width_8(call: &mut Call) {
    if let Call::Address(at) = call
        && at.width == 8
        && at.offset.is_multiple_of(8)
    {
        at.width = 4;
    }
}

fn refuses_width_2(call: &mut Call) {
    if let Call::Address(at) = call
        && at.width == 2
    {
        at.width = 0;
    }
}

#[test]
fn width_8_accepted() {
    let width = found_width(|| pair(|wrong, call| instead(wrong, call, takes_width_8)));
    assert_eq!(width, 8);
}

#[test]
fn width_2_refused() {
    let width = found_width(|| pair(|wrong, call| instead(wrong, call, refuses_width_2)));
    assert_eq!(width, 2);
}

/// Passes over every type 2 record after the first of its block.
fn takes_type_2_twice(call: &mut Call) {
    for part in call.parts() {
        let ("slot" | "bridge_block", Part::Bytes(block)) = part else {
            continue;
        };
        let bytes = block.lent_mut();
        let mut fields = blocks::fields(bytes);
        fields.retain(|field| reference::find_record(&bytes[field.clone()], &[], 2).is_ok());
        for field in fields.iter().skip(1) {
            bytes[field.start] = 3;
        }
    }
}

#[test]
fn a_type_2_record_accepted_twice() {
    let found = found(|| pair(|wrong, call| instead(wrong, call, takes_type_2_twice)));
    match &short_names(&found)[..] {
        ["find_record"] | ["start", "osc", "register_values"] => {}
        _ => panic!("{}", found.report()),
    }
}

fn reads_the_block_first(wrong: &mut Wrong, call: &mut Call) -> Given {
    let mut given = wrong.reference.call(call);
    if let (10, Call::RegisterValues(asked)) = (given.number, call) {
        let record = reference::find_record(asked.slot.lent(), asked.bridge_block.lent(), 2);
        if record == Err(Refusal::RecordBlock) {
            given.number = 8;
        }
    }
    given
}

#[test]
fn refusal_8_before_10_in_register_values() {
    let found = found(|| pair(reads_the_block_first));
    assert_eq!(short_names(&found), ["start", "osc", "register_values"]);
}

fn keeps_error_registers_on_bit_2(wrong: &mut Wrong, call: &mut Call) -> Given {
    let mut given = wrong.reference.call(call);
    if let (0, Call::RegisterValues(asked), Handed::Values(values)) =
        (given.number, call, &mut given.handed)
    {
        let (session, bridge) = (asked.session, asked.bridge);
        let report = wrong.reference.call(&mut Report { session, bridge }.into());
        if matches!(report.handed, Handed::Holding { held, .. } if held & (1 << 2) != 0) {
            for index in [0, 1, 2, 3, 6, 7] {
                values[index] = asked.current.lent()[index];
            }
        }
    }
    given
}

#[test]
fn error_registers_that_stay_while_bit_2_is_held() {
    let found = found(|| pair(keeps_error_registers_on_bit_2));
    assert_eq!(short_names(&found), ["start", "osc", "register_values"]);
}
