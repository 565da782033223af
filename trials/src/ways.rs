//! The ways in which right _OSC calls on rows of either edition come out (document 02, d).

use crate::editions::{Asked, EDITION_3_3, OLD_EDITION, SUPPORT_7};

const BIT_3: u32 = 1 << 3;
const BIT_4: u32 = 1 << 4;
const BIT_7: u32 = 1 << 7;

/// What a way is called, and whether a call comes out so.
type Way = (&'static str, fn(&Asked) -> bool);

/// What is counted: taking calls, but for one way.
pub const WAYS: [Way; 12] = [
    ("3.3: all granted", |asked| {
        taken_3_3(asked) && asked.requested != 0 && asked.granted() == asked.requested
    }),
    ("3.3: 3 and 7 granted as new", |asked| {
        taken_3_3(asked) && asked.granted() & !asked.held & (BIT_3 | BIT_7) == BIT_3 | BIT_7
    }),
    ("3.3: masked, no support bit 7", |asked| {
        let declared = Asked {
            support: asked.support | SUPPORT_7,
            ..*asked
        };
        taken_3_3(asked) && differs(asked, &declared)
    }),
    ("3.3: masked, 7 without 3", |asked| {
        taken_3_3(asked) && lacks(asked, BIT_7, BIT_3)
    }),
    ("3.3: masked, 3 without 7", |asked| {
        taken_3_3(asked) && lacks(asked, BIT_3, BIT_7)
    }),
    ("3.3: masked, without 4", |asked| {
        taken_3_3(asked) && lacks(asked, !BIT_4, BIT_4)
    }),
    ("3.3: by support told earlier", |asked| {
        let nothing_before = Asked {
            supported: 0,
            ..*asked
        };
        taken_3_3(asked) && differs(asked, &nothing_before)
    }),
    ("3.3: held, without its needs", |asked| {
        let nothing_held = Asked {
            permitted: asked.permitted | asked.held,
            held: 0,
            ..*asked
        };
        taken_3_3(asked) && differs(asked, &nothing_held)
    }),
    ("3.3: query by its own support", |asked| {
        let not_declared = Asked {
            support: 0,
            ..*asked
        };
        asked.edition == EDITION_3_3 && asked.query && differs(asked, &not_declared)
    }),
    ("old: other bits than by 3.3", |asked| {
        let as_3_3 = Asked {
            edition: EDITION_3_3,
            ..*asked
        };
        taken_old(asked) && differs(asked, &as_3_3)
    }),
    ("old: bits 5 to 9 asked for", |asked| {
        taken_old(asked) && asked.requested & 0x3E0 != 0
    }),
    ("old: support bits 5 to 8 told", |asked| {
        taken_old(asked) && asked.support & 0x1E0 != 0
    }),
];

fn taken_3_3(asked: &Asked) -> bool {
    asked.edition == EDITION_3_3 && !asked.query
}

fn taken_old(asked: &Asked) -> bool {
    asked.edition == OLD_EDITION && !asked.query
}

fn differs(asked: &Asked, other: &Asked) -> bool {
    asked.granted() != other.granted()
}

/// Whether one of these bits is asked for and masked, and is granted where another is asked for and permitted too.
fn lacks(asked: &Asked, bits: u32, other: u32) -> bool {
    let with_other = Asked {
        permitted: asked.permitted | other,
        requested: asked.requested | other,
        ..*asked
    };
    bits & asked.requested & !asked.granted() & with_other.granted() != 0
}
