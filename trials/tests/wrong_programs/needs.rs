//! The granting rule over a list of bits and what each needs (document 02, d), and lists with one need more or fewer.

use trials::editions::{Asked, EDITION_3_3, OLD_EDITION, Outcome, known_support};
use trials::exhaustive::granting;

/// What a control bit needs: control bits in the set, and support bits that are declared.
pub type Needs = [u32; 2];

const NOTHING: Needs = [0, 0];
const BIT_4: Needs = [0x10, 0];

/// What each bit of an edition needs, from bit 0.
pub fn list(edition: u8) -> Vec<Needs> {
    match edition {
        EDITION_3_3 => vec![
            BIT_4,
            BIT_4,
            BIT_4,
            [0x90, 0],
            NOTHING,
            BIT_4,
            NOTHING,
            [0x18, 0x80],
            BIT_4,
            NOTHING,
        ],
        _ => vec![BIT_4, NOTHING, BIT_4, BIT_4, NOTHING],
    }
}

/// The requested known bits that are held or permitted.
pub fn available(list: &[Needs], asked: &Asked) -> u32 {
    let known = (1 << list.len()) - 1;
    asked.requested & known & (asked.held | asked.permitted)
}

/// The bits of a set that are held or have what they need.
pub fn kept(list: &[Needs], asked: &Asked, set: u32) -> u32 {
    let declared = asked.supported | (asked.support & known_support(asked.edition));
    let mut kept = set & asked.held;
    for (bit, [control, support]) in list.iter().enumerate() {
        if control & !set == 0 && support & !declared == 0 {
            kept |= set & (1 << bit);
        }
    }
    kept
}

/// The largest set in which each bit stays.
pub fn largest(list: &[Needs], asked: &Asked) -> u32 {
    let mut set = available(list, asked);
    loop {
        match kept(list, asked, set) {
            same if same == set => return set,
            fewer => set = fewer,
        }
    }
}

/// Another granted set.
pub fn granting(asked: &Asked, granted: u32) -> Outcome {
    asked.outcome_with(granted, known_support(asked.edition))
}

#[test]
fn the_lists_hold_of_every_set() {
    let rule = |asked: &Asked| granting(asked, largest(&list(asked.edition), asked));
    for (_, comparison) in granting::COMPARISONS {
        comparison(&rule).unwrap();
    }
}

/// Each need of each bit taken away, and each other bit given to it as a need.
#[test]
fn one_need_more_or_fewer() {
    for edition in [OLD_EDITION, EDITION_3_3] {
        let right = list(edition);
        for bit in 0..right.len() {
            let controls = (0..right.len()).filter(|other| *other != bit);
            let controls = controls.map(|other| [1 << other, 0]);
            let supports = (0..9).map(|support| [0, 1 << support]);
            for need in controls.chain(supports) {
                let mut wrong = right.clone();
                wrong[bit] = [wrong[bit][0] ^ need[0], wrong[bit][1] ^ need[1]];
                let rule = |asked: &Asked| granting(asked, largest(&wrong, asked));
                let mut bits = vec![3, 4, 7, bit as u32];
                bits.sort();
                bits.dedup();
                let compared = granting::sets_of(&bits, edition, &rule);
                assert!(compared.is_err(), "edition {edition}, bit {bit}, {need:x?}");
            }
        }
    }
}
