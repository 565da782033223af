//! Programs that change what is lent to them where they may not, and one that panics.

use trials::buffer::GUARD;
use trials::call::Call;
use trials::given::Given;
use trials::roms::UNIT;
use trials::service::Service;

use crate::wrong::{Wrong, found, pair, short_names};

fn writes_an_answer_when_refused(wrong: &mut Wrong, call: &mut Call) -> Given {
    let given = wrong.reference.call(call);
    if let (1..=3, Call::Osc(osc)) = (given.number, call)
        && let Some(byte) = osc.answer.lent_mut().first_mut()
    {
        *byte = !*byte;
    }
    given
}

#[test]
fn an_answer_byte_written_on_a_refused_call() {
    let found = found(|| pair(writes_an_answer_when_refused));
    assert_eq!(short_names(&found), ["osc"]);
}

fn writes_after_the_answer(wrong: &mut Wrong, call: &mut Call) -> Given {
    let given = wrong.reference.call(call);
    if let (0, Call::Osc(osc)) = (given.number, call) {
        let whole = osc.answer.whole_mut();
        whole[whole.len() - GUARD] = 0;
    }
    given
}

#[test]
fn a_byte_written_after_the_answer_buffer() {
    let found = found(|| pair(writes_after_the_answer));
    assert_eq!(short_names(&found), ["start", "osc"]);
}

fn changes_a_register_list(wrong: &mut Wrong, call: &mut Call) -> Given {
    let given = wrong.reference.call(call);
    if let Call::RegisterValues(asked) = call
        && let Some(value) = asked.current.lent_mut().first_mut()
    {
        *value = 0;
    }
    given
}

#[test]
fn a_number_changed_in_a_list_that_is_only_read() {
    let found = found(|| pair(changes_a_register_list));
    assert_eq!(short_names(&found), ["register_values"]);
}

fn writes_into_a_row(wrong: &mut Wrong, call: &mut Call) -> Given {
    let given = wrong.reference.call(call);
    if let Call::Start(start) = call
        && let Some(row) = start.rows.lent_mut().last_mut()
    {
        row.unused = 0;
    }
    given
}

#[test]
fn an_unused_byte_written_in_a_row() {
    let found = found(|| pair(writes_into_a_row));
    let [Call::Start(start)] = &found.list[..] else {
        panic!("{}", found.report());
    };
    assert_eq!(start.rows.lent()[0].numbers(), [0, 0, 0, 0, 0, 0, 0, 1]);
}

fn changes_a_rom(wrong: &mut Wrong, call: &mut Call) -> Given {
    let given = wrong.reference.call(call);
    if let (0, Call::FindImage(search)) = (given.number, call)
        && let Some(byte) = search.rom.lent_mut().last_mut()
    {
        *byte = !*byte;
    }
    given
}

#[test]
fn a_byte_changed_in_a_rom() {
    let found = found(|| pair(changes_a_rom));
    let [Call::FindImage(search)] = &found.list[..] else {
        panic!("{}", found.report());
    };
    assert_eq!(search.rom.lent().len(), UNIT);
}

fn panics_at_an_unsound_block(wrong: &mut Wrong, call: &mut Call) -> Given {
    let given = wrong.reference.call(call);
    if let (8, Call::FindRecord(_)) = (given.number, call) {
        panic!("the test expects this");
    }
    given
}

#[test]
fn a_panic() {
    let found = found(|| pair(panics_at_an_unsound_block));
    assert_eq!(short_names(&found), ["find_record"]);
}
