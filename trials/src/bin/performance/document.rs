//! The figures as tables of docs/PERFORMANCE.md, with the machine's description.

use crate::million::{BYTES, ENTRIES, FEW, Sums};
use crate::timing::{Figure, REPEATS, TURNS};
use std::fmt::Write;
use std::{fs, io, process::Command};

const CALL_COLUMNS: [&str; 7] = [
    "Call",
    "Proved library, ns",
    "Reference, ns",
    "Ratio",
    "Least to greatest ratio",
    "Proved library, instructions",
    "Reference, instructions",
];

const SUM_COLUMNS: [&str; 6] = [
    "Sum",
    "A million tables, ns",
    "Least to greatest",
    "A few tables, ns",
    "Least to greatest",
    "Instructions",
];

/// What a command prints, on one line.
fn said(command: &str, argument: &str) -> String {
    let output = Command::new(command).arg(argument).output();
    output.map_or_else(
        |_| format!("{command}: not found"),
        |o| String::from_utf8_lossy(&o.stdout).trim().to_string(),
    )
}

/// The processor's name and how many of it there are.
fn processor() -> String {
    let info = fs::read_to_string("/proc/cpuinfo").unwrap_or_default();
    let names: Vec<&str> = info
        .lines()
        .filter_map(|l| l.strip_prefix("model name"))
        .collect();
    let name = names.first().map_or("unknown processor", |l| {
        l.trim_start_matches([' ', '\t', ':'])
    });
    format!("{} x {name}", names.len().max(1))
}

pub fn figures_as_text(figures: &[Figure], instructions: Option<&[[u64; 2]]>) -> String {
    // Writing to a String does not fail.
    let mut text = String::new();
    let _ = writeln!(
        text,
        "Machine: {}; {}; {}; {}; {}.",
        processor(),
        said("uname", "-sm"),
        said("rustc", "--version"),
        said("rt", "version"),
        said("valgrind", "--version")
    );
    let _ = writeln!(
        text,
        "{REPEATS} repeats; in each the two sides took {TURNS} turns one after the other, and each side's quickest turn counts.\n"
    );
    text += &heading(&CALL_COLUMNS);
    for (index, figure) in figures.iter().enumerate() {
        let counted = counted(instructions, index);
        let _ = writeln!(text, "| {} | {counted} |", timed(figure));
    }
    text
}

/// The first two lines of a table.
fn heading(columns: &[&str]) -> String {
    let under = "---|".repeat(columns.len());
    format!("| {} |\n|{under}\n", columns.join(" | "))
}

/// The name of the call and its times.
fn timed(figure: &Figure) -> String {
    let (least, most) = (figure.ratios[0], figure.ratios[REPEATS - 1]);
    format!(
        "{} | {:.1} | {:.1} | {:.2} | {least:.2} to {most:.2}",
        figure.name,
        figure.ours,
        figure.theirs,
        figure.ratio()
    )
}

/// The instructions of a call on each side.
fn counted(instructions: Option<&[[u64; 2]]>, index: usize) -> String {
    match instructions {
        Some(counts) => counts[index].map(|count| count.to_string()).join(" | "),
        None => ["not counted"; 2].join(" | "),
    }
}

/// Each way to sum a table: its times and its instructions.
pub fn sums_as_text(sums: &[Sums], instructions: Option<&[[u64; 2]]>) -> String {
    let mut text = format!(
        "A million sound tables of {ENTRIES} entries, {BYTES} bytes each; a few are {FEW} of them, a million sums too.\n\
        {REPEATS} repeats, in each of which the ways took turns; nanoseconds a sum, the median.\n\n"
    );
    text += &heading(&SUM_COLUMNS);
    for (index, sums) in sums.iter().enumerate() {
        let count = instructions.map_or("not counted".into(), |i| i[index][0].to_string());
        let [all, few] = [sums.all, sums.few].map(spread);
        let _ = writeln!(text, "| {} | {all} | {few} | {count} |", sums.name);
    }
    text
}

/// The median of numbers in rising order, the least and the greatest.
fn spread(rising: [f64; REPEATS]) -> String {
    let [least, median, most] = [0, REPEATS / 2, REPEATS - 1].map(|i| rising[i]);
    format!("{median:.1} | {least:.1} to {most:.1}")
}

/// Puts the text between the document's marks of this name.
pub fn write_between_marks(path: &str, name: &str, text: &str) -> io::Result<()> {
    let [begin, end] = ["begin", "end"].map(|side| format!("<!-- {name}: {side} -->\n"));
    let whole = fs::read_to_string(path)?;
    let missing = || {
        let why = format!("the marks of the {name} are missing");
        io::Error::new(io::ErrorKind::InvalidData, why)
    };
    let (before, rest) = whole.split_once(&begin).ok_or_else(missing)?;
    let (_, after) = rest.split_once(&end).ok_or_else(missing)?;
    fs::write(path, format!("{before}{begin}{text}{end}{after}"))
}
