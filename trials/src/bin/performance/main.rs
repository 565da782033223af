//! Each public call of the proved library beside the same call of the reference, on the same inputs: how long it takes, and how many
//! instructions; then the sum of an MCFG table in several ways. Prints the figures; with the path of a document, writes them between its
//! marks.

mod cases;
mod counting;
mod document;
mod inputs;
mod million;
mod requests;
mod roms;
mod sums;
mod timing;
mod writer;

use std::process::ExitCode;

use timing::Timing;

fn main() -> ExitCode {
    let arguments: Vec<String> = std::env::args().skip(1).collect();
    let done = match &arguments[..] {
        [first, case @ ..] if first == counting::MAKE => {
            counting::make(case).ok_or("no such calls".to_string())
        }
        [] => {
            print!("{}\n{}", figures(), sums());
            Ok(())
        }
        [path] => write(path),
        _ => Err("performance [DOCUMENT]".to_string()),
    };
    match done {
        Ok(()) => ExitCode::SUCCESS,
        Err(why) => {
            eprintln!("performance: {why}");
            ExitCode::FAILURE
        }
    }
}

fn figures() -> String {
    let mut timing = Timing::default();
    cases::all(&mut timing);
    let instructions = counting::instructions(timing.figures.iter().map(|figure| figure.name));
    document::figures_as_text(&timing.figures, instructions.as_deref())
}

fn sums() -> String {
    let sums = million::timed();
    let instructions = counting::instructions(sums.iter().map(|sums| sums.name));
    document::sums_as_text(&sums, instructions.as_deref())
}

fn write(path: &str) -> Result<(), String> {
    for (mark, make) in [("figures", figures as fn() -> String), ("sums", sums)] {
        let text = make();
        println!("{text}");
        document::write_between_marks(path, mark, &text)
            .map_err(|error| format!("{path}: {error}"))?;
    }
    Ok(())
}
