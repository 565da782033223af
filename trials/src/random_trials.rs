//! The random trials: lists drawn from a seed, run on two programs.

use crate::call::Call;
use crate::comparison::{self, Difference};
use crate::counts::Counts;
use crate::lists;
use crate::print;
use crate::random::Random;
use crate::service::Pair;
use crate::shrink;

pub struct Setting {
    pub seed: u64,
    /// The least number of calls; the last list is made to its end.
    pub calls: u64,
    /// Every lent buffer is an allocation of exactly its length, without guards.
    pub exact: bool,
}

/// A list that shows a difference, as short as it could be made.
pub struct Found {
    /// Which list of the run it comes from, counted from 0.
    pub list_number: u64,
    pub list: Vec<Call>,
    pub difference: Difference,
}

impl Found {
    pub fn report(&self) -> String {
        print::report(&self.list, &self.difference)
    }
}

/// Runs lists on each pair of programs until there are enough calls or two programs differ.
pub fn run(
    setting: &Setting,
    pairs: &[fn() -> Pair],
    counts: &mut Counts,
) -> Result<(), Box<Found>> {
    let mut random = Random::new(setting.seed);
    let mut list_number = 0;
    while counts.calls() < setting.calls {
        let mut list = lists::any_list(&mut Random::new(random.long()));
        if setting.exact {
            list.iter_mut().for_each(|call| call.set_guard(0));
        }
        run_list(&list, list_number, pairs, counts)?;
        list_number += 1;
    }
    Ok(())
}

fn run_list(
    list: &[Call],
    list_number: u64,
    pairs: &[fn() -> Pair],
    counts: &mut Counts,
) -> Result<(), Box<Found>> {
    for (index, make) in pairs.iter().enumerate() {
        let mut seen = |agreed: comparison::Agreed| {
            if index == 0 {
                counts.note(&agreed);
            }
        };
        if let Some(first) = comparison::compare(list, &mut make(), &mut seen) {
            // A difference that does not come again is told with its whole list.
            let (list, difference) = shortest(list, *make).unwrap_or((list.to_vec(), first));
            return Err(Box::new(Found {
                list_number,
                list,
                difference,
            }));
        }
    }
    Ok(())
}

/// The shortest list found from this one that shows a difference, and the difference; nothing if this one shows none.
pub fn shortest(list: &[Call], make: fn() -> Pair) -> Option<(Vec<Call>, Difference)> {
    let differs = |list: &[Call]| comparison::compare(list, &mut make(), &mut |_| ());
    let first = differs(list)?;
    let list = shrink::shrink(&list[..=first.at], &mut |list| differs(list).is_some());
    let difference = differs(&list)?;
    Some((list, difference))
}
