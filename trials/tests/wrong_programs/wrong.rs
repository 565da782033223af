//! The reference with one wrong rule, and the list that shows it.

use std::collections::HashMap;

use trials::buffer::Bytes;
use trials::call::{Call, Osc, Start};
use trials::counts::Counts;
use trials::exhaustive;
use trials::given::{Given, Handed};
use trials::random_trials::{self, Found, Setting};
use trials::service::{Pair, Reference, Service};
use trials::settings::Settings;

pub type Rule = fn(&mut Wrong, &mut Call) -> Given;

pub struct Wrong {
    pub reference: Reference,
    pub start: Option<Start>,
    /// What each bridge holds where the rule says so.
    pub holdings: HashMap<u8, Handed>,
    rule: Rule,
}

impl Service for Wrong {
    fn name(&self) -> &'static str {
        "wrong program"
    }

    fn call(&mut self, call: &mut Call) -> Given {
        if let Call::Start(start) = call {
            self.start = Some(start.clone());
        }
        (self.rule)(self, call)
    }

    fn read(&mut self, block: &Bytes) -> Result<Settings, u8> {
        self.reference.read(block)
    }
}

pub fn pair(rule: Rule) -> Pair {
    let left = Wrong {
        reference: Reference::new(),
        start: None,
        holdings: HashMap::new(),
        rule,
    };
    Pair {
        left: Box::new(left),
        right: Box::new(Reference::new()),
    }
}

/// The reference, asked another call; what it leaves in the buffer that it may write in is handed on.
pub fn instead(wrong: &mut Wrong, call: &mut Call, change: impl Fn(&mut Call)) -> Given {
    let mut changed = call.clone();
    change(&mut changed);
    let given = wrong.reference.call(&mut changed);
    match (call, changed) {
        (Call::Osc(osc), Call::Osc(changed)) => osc.answer = changed.answer,
        (Call::WriteRecords(write), Call::WriteRecords(changed)) => write.buffer = changed.buffer,
        _ => {}
    }
    given
}

/// Random trials; the error is the shortest list that shows a wrong rule.
pub fn tried(make: fn() -> Pair) -> Result<(), Box<Found>> {
    let setting = Setting {
        seed: 1,
        calls: 100_000,
        exact: false,
    };
    random_trials::run(&setting, &[make], &mut Counts::default())
}

/// The shortest list that shows the wrong rule.
pub fn found(make: fn() -> Pair) -> Box<Found> {
    tried(make).expect_err("the wrong program is found")
}

/// The names of the calls; a start has one entry and one row.
pub fn short_names(found: &Found) -> Vec<&'static str> {
    for call in &found.list {
        if let Call::Start(start) = call {
            let lengths = (start.mcfg.lent().len(), start.rows.lent().len());
            assert_eq!(lengths, (60, 1), "{}", found.report());
        }
    }
    found.list.iter().map(Call::name).collect()
}

/// The _OSC call at the end of a list of calls with these names.
pub fn last_osc(found: &Found, names: &[&str]) -> Osc {
    assert_eq!(short_names(found), names);
    match found.list.last() {
        Some(Call::Osc(osc)) => osc.clone(),
        _ => panic!("{}", found.report()),
    }
}

/// Whether an _OSC call was a right one, by its answer.
pub fn judged(given: Given, answer: &[u8]) -> bool {
    given.number == 0 && matches!(answer[0], 0x00 | 0x10)
}

/// The list that shows the wrong rule in an exhaustive comparison, in words.
pub fn found_exhaustively(make: fn() -> Pair) -> String {
    exhaustive::run(make, &mut |_, _| ()).expect_err("it is found")
}
