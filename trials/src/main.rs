//! `trials [--calls N] [--seed S] [--exact] [--exhaustive]`

use std::process::ExitCode;
use std::time::Instant;

use trials::counts::{Counts, FULL_RUN, LEAST};
use trials::editions::Asked;
use trials::exhaustive::{self, granting, sums};
use trials::random_trials::{self, Setting};
use trials::service::{boundary_and_reference, safe_crate_and_reference};
use trials::sums::{eight_to_a_step, one_to_a_step};

const USAGE: &str = "\
trials [--calls N] [--seed S] [--exact] [--exhaustive]
Compares the proved library, and the safe crate over it, with the reference implementation.
  --calls N      the least number of random calls (200000)
  --seed S       the seed of the random calls (1)
  --exact        every lent buffer is an allocation of exactly its length, for valgrind; no exhaustive comparisons but of the sum of bytes
  --exhaustive   the exhaustive comparisons alone";

struct Arguments {
    setting: Setting,
    exhaustive_alone: bool,
}

fn arguments() -> Option<Arguments> {
    let mut setting = Setting {
        seed: 1,
        calls: FULL_RUN,
        exact: false,
    };
    let mut exhaustive_alone = false;
    let mut words = std::env::args().skip(1);
    while let Some(word) = words.next() {
        match word.as_str() {
            "--calls" => setting.calls = words.next()?.parse().ok()?,
            "--seed" => setting.seed = words.next()?.parse().ok()?,
            "--exact" => setting.exact = true,
            "--exhaustive" => exhaustive_alone = true,
            _ => return None,
        }
    }
    Some(Arguments {
        setting,
        exhaustive_alone,
    })
}

fn main() -> ExitCode {
    let Some(arguments) = arguments() else {
        eprintln!("{USAGE}");
        return ExitCode::from(2);
    };
    match run(&arguments) {
        Ok(()) => ExitCode::SUCCESS,
        Err(why) => {
            println!("{why}");
            ExitCode::FAILURE
        }
    }
}

fn run(arguments: &Arguments) -> Result<(), String> {
    if !arguments.exhaustive_alone {
        random_part(&arguments.setting)?;
    }
    if arguments.setting.exact {
        let strings = sums::exact_lengths(eight_to_a_step)?;
        println!("no difference in {strings} sums of bytes");
        return Ok(());
    }
    exhaustive_part()
}

fn random_part(setting: &Setting) -> Result<(), String> {
    let begun = Instant::now();
    let mut counts = Counts::default();
    let result = random_trials::run(
        setting,
        &[boundary_and_reference, safe_crate_and_reference],
        &mut counts,
    );
    println!("{counts}");
    println!(
        "seed {}: {} calls compared in {:.1} s",
        setting.seed,
        counts.calls(),
        begun.elapsed().as_secs_f64()
    );
    if let Err(found) = result {
        return Err(format!(
            "list {} of seed {} differs:\n{}",
            found.list_number,
            setting.seed,
            found.report()
        ));
    }
    let rare = counts.rare();
    if setting.calls >= FULL_RUN && !rare.is_empty() {
        return Err(format!(
            "fewer than {LEAST} times in a full run:\n{}",
            rare.join("\n")
        ));
    }
    println!("no difference");
    Ok(())
}

fn exhaustive_part() -> Result<(), String> {
    let begun = Instant::now();
    let differs = |why: String| format!("an exhaustive comparison differs:\n{why}");
    let mut tell = |name: &str, count: u64| println!("{count:>9}  {name}");
    for (name, comparison) in granting::COMPARISONS {
        tell(name, comparison(&Asked::outcome).map_err(differs)?);
    }
    let strings = sums::every_length(eight_to_a_step).map_err(differs)?;
    tell(
        "the sum of 0 to 64 bytes, and of as many as 0 to 64 entries have",
        strings,
    );
    let strings = sums::every_length(one_to_a_step).map_err(differs)?;
    tell("the same, a byte to a step", strings);
    exhaustive::run(boundary_and_reference, &mut tell).map_err(differs)?;
    exhaustive::run(safe_crate_and_reference, &mut |_, _| ()).map_err(differs)?;
    println!(
        "no difference in the exhaustive comparisons ({:.1} s)",
        begun.elapsed().as_secs_f64()
    );
    Ok(())
}
