//! A program that answers right _OSC calls by another rule, and keeps by itself what its bridges hold.

use trials::call::{Call, Osc};
use trials::editions::{Asked, Outcome};
use trials::given::{Given, Handed};
use trials::requests::dword;
use trials::row::Row;
use trials::service::Service;

use crate::wrong::{Wrong, judged};

pub fn regranted(wrong: &mut Wrong, call: &mut Call, rule: fn(&Asked) -> Outcome) -> Given {
    regranted_by_rows(wrong, call, |_, _, asked| rule(asked))
}

/// By a rule that is also told the rows of the table and the number of the bridge.
pub fn regranted_by_rows(
    wrong: &mut Wrong,
    call: &mut Call,
    rule: impl Fn(&[Row], usize, &Asked) -> Outcome,
) -> Given {
    let mut given = wrong.reference.call(call);
    match call {
        Call::Start(_) => wrong.holdings.clear(),
        Call::Reset(reset) if given.number == 0 => {
            wrong.holdings.remove(&reset.bridge);
        }
        Call::Report(report) if given.number == 0 => given.handed = holding(wrong, report.bridge),
        Call::Osc(osc) if judged(given, osc.answer.lent()) => {
            let start = wrong.start.as_ref().expect("there is a bridge");
            let (rows, bridge) = (start.rows.lent(), usize::from(osc.bridge));
            let asked = Asked::new(osc, &rows[bridge], holding(wrong, osc.bridge));
            let outcome = rule(rows, bridge, &asked);
            answer(osc, outcome.granted);
            let (held, supported) = (outcome.held, outcome.supported);
            let holding = Handed::Holding { held, supported };
            wrong.holdings.insert(osc.bridge, holding);
        }
        _ => {}
    }
    given
}

fn holding(wrong: &Wrong, bridge: u8) -> Handed {
    let nothing = Handed::Holding {
        held: 0,
        supported: 0,
    };
    wrong.holdings.get(&bridge).copied().unwrap_or(nothing)
}

/// Writes another granted set, with its status, into the answer to a right call.
fn answer(osc: &mut Osc, granted: u32) {
    let requested = dword(osc.capabilities.lent(), 2);
    let answer = osc.answer.lent_mut();
    answer[0] = if granted == requested { 0x00 } else { 0x10 };
    answer[8..].copy_from_slice(&granted.to_le_bytes());
}
