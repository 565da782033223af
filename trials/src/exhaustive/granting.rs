//! Granting: permitted, held and requested bits in every way, with support and without, as a query and as a taking call.

use slipwattle::sys;

use crate::call::{Osc, Start};
use crate::editions::{Asked, EDITION_3_3, OLD_EDITION, Outcome, SUPPORT_7};
use crate::given::Handed;
use crate::mcfg::{self, Entry};
use crate::random::Random;
use crate::requests;
use crate::row::Row;
use crate::service::{Boundary, Service};

/// Supported bits and a support DWORD, without bit 7: bits known in both editions, in edition 3.3 alone, and in none.
const SOME: [u32; 2] = [0x12, 0x8000_0765];
const OWNER: u8 = 3;
/// Control bit 10 is the first that neither edition knows.
const BITS: u32 = 11;

/// The outcome of a right _OSC call.
pub type Rule<'a> = &'a dyn Fn(&Asked) -> Outcome;

/// The name of each comparison, and the comparison: the count of its calls, or a difference in words.
type Comparison = (&'static str, fn(Rule) -> Result<u64, String>);

pub const COMPARISONS: [Comparison; 4] = [
    (
        "old edition: every permitted, held and requested set of bits 0 to 5",
        old_sets,
    ),
    (
        "each edition: every permitted, held and requested set of bits 0, 3, 4, 7 and 9",
        five_bits,
    ),
    (
        "edition 3.3: every permitted, held and requested set of bits 3, 4, 7 and any other of 0 to 10",
        four_bits,
    ),
    (
        "edition 3.3: every permitted, held and requested set of any three of bits 0 to 10",
        three_bits,
    ),
];

/// The old edition, with some support, with none and with all, which do not count.
pub fn old_sets(rule: Rule) -> Result<u64, String> {
    let mut bench = Bench::new(rule);
    for supports in [SOME, [0, 0], [0x1F, u32::MAX]] {
        bench.every_way(&[0, 1, 2, 3, 4, 5], OLD_EDITION, supports)?;
    }
    Ok(bench.count)
}

pub fn five_bits(rule: Rule) -> Result<u64, String> {
    let editions = [OLD_EDITION, EDITION_3_3].into_iter();
    let counts = editions.map(|edition| sets_of(&[0, 3, 4, 7, 9], edition, rule));
    counts.sum()
}

/// Bits 3, 4 and 7 are those that others need.
fn four_bits(rule: Rule) -> Result<u64, String> {
    let others = (0..BITS).filter(|bit| ![3, 4, 7].contains(bit));
    let counts = others.map(|other| sets_of(&[3, 4, 7, other], EDITION_3_3, rule));
    counts.sum()
}

fn three_bits(rule: Rule) -> Result<u64, String> {
    let twos = (1..BITS).flat_map(|middle| (0..middle).map(move |low| [low, middle]));
    let threes = twos.flat_map(|[low, middle]| {
        let highs = middle + 1..BITS;
        highs.map(move |high| [low, middle, high])
    });
    let counts = threes.map(|bits| sets_of(&bits, EDITION_3_3, rule));
    counts.sum()
}

/// Every permitted, held and requested set of these bits, with some support and with none, to which bit 7 is added in this call, earlier,
/// in both, and not at all.
pub fn sets_of(bits: &[u32], edition: u8, rule: Rule) -> Result<u64, String> {
    let mut bench = Bench::new(rule);
    for [supported, support] in [SOME, [0, 0]] {
        for earlier in [0, SUPPORT_7] {
            for now in [0, SUPPORT_7] {
                bench.every_way(bits, edition, [supported | earlier, support | now])?;
            }
        }
    }
    Ok(bench.count)
}

/// A started table with one bridge, the rule that it is compared with, and a count of the calls compared.
struct Bench<'a> {
    boundary: Boundary,
    rule: Rule<'a>,
    count: u64,
}

impl Bench<'_> {
    fn new(rule: Rule) -> Bench {
        Bench {
            boundary: started(),
            rule,
            count: 0,
        }
    }

    fn every_way(
        &mut self,
        bits: &[u32],
        edition: u8,
        [supported, support]: [u32; 2],
    ) -> Result<(), String> {
        let sets: Vec<u32> = (0..1 << bits.len()).map(|set| spread(bits, set)).collect();
        for query in [true, false] {
            for &permitted in &sets {
                for &held in &sets {
                    for &requested in &sets {
                        self.check(&Asked {
                            edition,
                            permitted,
                            held,
                            supported,
                            query,
                            support,
                            requested,
                        })?;
                    }
                }
            }
        }
        Ok(())
    }

    /// Sets the bridge of a started table, which a call allows: of its table it asks only that windows are apart and end at 2^64 at
    /// most. Compares with the rule's outcome, answered as document 01 has it.
    fn check(&mut self, asked: &Asked) -> Result<(), String> {
        self.count += 1;
        let before = sys::HostBridge {
            permitted: asked.permitted,
            held: asked.held,
            supported: asked.supported,
            edition: asked.edition,
            ..self.boundary.table().bridges[0]
        };
        self.boundary.table().bridges[0] = before;
        let mut call = right_call(asked).into();
        let number = self.boundary.call(&mut call).number;
        let after = self.boundary.table().bridges[0];
        let (answered, bridge) = expected(asked, (self.rule)(asked), before);
        let answered = answered.into();
        if (number, &call, after) == (0, &answered, bridge) {
            return Ok(());
        }
        Err(format!(
            "{asked:x?} gives {number}\nleft as {call:x?}\nexpected {answered:x?}\nbridge {after:x?}\nexpected {bridge:x?}"
        ))
    }
}

/// These bits, of which the set has the places.
fn spread(bits: &[u32], set: u32) -> u32 {
    let chosen = (0..).zip(bits).filter(|(place, _)| set >> place & 1 == 1);
    chosen.map(|(_, bit)| 1 << bit).sum()
}

fn started() -> Boundary {
    let entry = Entry {
        base: 0xE000_0000,
        segment: 0,
        start: 0,
        end: 255,
    };
    let mcfg = mcfg::table(&mut Random::new(0), &[entry]);
    let mut boundary = Boundary::new();
    let start = Start {
        mcfg: mcfg.into(),
        rows: vec![Row::express(OWNER, 0, 0, 255)].into(),
    };
    let given = boundary.call(&mut start.into());
    assert_eq!(
        given.handed,
        Handed::Table { bridges: 1 },
        "the start is sound"
    );
    boundary
}

fn right_call(asked: &Asked) -> Osc {
    let status = u32::from(asked.query);
    requests::right_call(OWNER, 0, status, asked.support, asked.requested)
}

/// The call and the bridge as document 01 leaves them.
fn expected(asked: &Asked, outcome: Outcome, before: sys::HostBridge) -> (Osc, sys::HostBridge) {
    let status = if asked.requested & !outcome.granted == 0 {
        0
    } else {
        0x10
    };
    let mut answered = right_call(asked);
    let answer = [status, asked.support, outcome.granted].map(u32::to_le_bytes);
    answered.answer.replace(&answer.concat());
    let bridge = sys::HostBridge {
        held: outcome.held,
        supported: outcome.supported,
        ..before
    };
    (answered, bridge)
}
