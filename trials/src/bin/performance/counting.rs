//! The instructions of one call, counted by callgrind.
//!
//! callgrind counts all that a program does. So it runs this program twice for each case and side: once it makes some calls, once twice as
//! many. What the second run has more are the instructions of these calls.

use std::env;
use std::process::Command;

use crate::cases::{self, Runner};
use crate::million;
use crate::roms::LONGEST;
use crate::timing::repeat;

/// The first argument of a run that makes calls and nothing else; the case, the side and the number of calls follow.
pub const MAKE: &str = "--make";

const CALLS: u64 = 100;
const OURS: &str = "ours";
const THEIRS: &str = "theirs";
/// A case of its own: a call that does nothing.
const NOTHING: &str = "nothing";

/// Makes calls of one case on one side.
struct Making<'a> {
    case: &'a str,
    side: &'a str,
    calls: u32,
}

impl Runner for Making<'_> {
    fn wants(&self, name: &str) -> bool {
        self.case == name
    }

    fn case<A, B>(
        &mut self,
        name: &'static str,
        mut ours: impl FnMut() -> A,
        mut theirs: impl FnMut() -> B,
    ) {
        match self.side {
            OURS if self.wants(name) => repeat(self.calls, &mut ours),
            THEIRS if self.wants(name) => repeat(self.calls, &mut theirs),
            _ => {}
        }
    }
}

/// Makes the calls that the arguments after `MAKE` name.
pub fn make(arguments: &[String]) -> Option<()> {
    let [case, side, calls] = arguments else {
        return None;
    };
    let mut making = Making {
        case,
        side,
        calls: calls.parse().ok()?,
    };
    making.case(NOTHING, || (), || ());
    cases::all(&mut making);
    million::cases(&mut making);
    Some(())
}

/// The instructions of a call of each case on each side, less those of the loop around it. `None` where callgrind cannot be run.
pub fn instructions<'a>(cases: impl Iterator<Item = &'a str>) -> Option<Vec<[u64; 2]>> {
    let around = per_call(NOTHING, OURS)?;
    let side = |case, side| Some(per_call(case, side)?.saturating_sub(around));
    cases
        .map(|case| Some([side(case, OURS)?, side(case, THEIRS)?]))
        .collect()
}

/// The instructions of a call with the loop around it.
fn per_call(case: &str, side: &str) -> Option<u64> {
    // A long call needs no mean of many.
    let calls = if case == LONGEST { 1 } else { CALLS };
    let more = counted(case, side, 2 * calls)?.checked_sub(counted(case, side, calls)?)?;
    Some((more + calls / 2) / calls)
}

/// What callgrind counts of a run that makes so many calls.
fn counted(case: &str, side: &str, calls: u64) -> Option<u64> {
    let run = Command::new("valgrind")
        .args(["--tool=callgrind", "--callgrind-out-file=/dev/null"])
        .arg(env::current_exe().ok()?)
        .args([MAKE, case, side, &calls.to_string()])
        .output()
        .ok()?;
    let said = String::from_utf8_lossy(&run.stderr);
    let (_, count) = said.split_once("Collected : ")?;
    count.split_whitespace().next()?.parse().ok()
}
