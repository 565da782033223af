//! The trials find wrong programs: the reference with one wrong rule is compared with the reference, and the list that shows the
//! difference is as short as it can be.

mod edition_starts;
mod editions;
mod errors_seen;
mod granting;
mod lent;
mod limits;
mod misread;
mod misread_starts;
mod narrowed;
mod needs;
mod regranted;
mod roms;
mod senseless;
mod sessions;
mod sizes;
mod sums;
mod writer;
mod wrong;

use trials::counts::Counts;
use trials::random_trials::{self, Setting};
use trials::service::{Pair, Service};
use wrong::pair;

#[test]
fn a_program_compared_with_itself_does_not_differ() {
    let setting = Setting {
        seed: 2,
        calls: 20_000,
        exact: true,
    };
    let itself: fn() -> Pair = || pair(|wrong, call| wrong.reference.call(call));
    let mut counts = Counts::default();
    assert!(random_trials::run(&setting, &[itself], &mut counts).is_ok());
    assert!(counts.calls() >= 20_000);
}
