//! A list of calls and its difference in words and hexadecimal.

use std::fmt::{self, Display, Write};

use crate::call::Call;
use crate::comparison::{Difference, What};
use crate::part::Part;
use crate::row::{NAMES, Row};
use crate::settings::Settings;

/// Everything that is needed to make the calls again by hand.
pub fn report(list: &[Call], difference: &Difference) -> String {
    let mut text = String::new();
    for (at, call) in list.iter().enumerate() {
        // Writing to a String does not fail.
        let _ = writeln!(text, "call {at}: {}", Shown(call));
    }
    let _ = write!(
        text,
        "difference after call {}: {}",
        difference.at,
        Explained(difference)
    );
    text
}

struct Shown<'a>(&'a Call);

impl Display for Shown<'_> {
    fn fmt(&self, f: &mut fmt::Formatter<'_>) -> fmt::Result {
        f.write_str(self.0.name())?;
        for (name, part) in self.0.clone().parts() {
            write!(f, "\n    {name} ")?;
            match part {
                Part::Byte(number) => write!(f, "{number}")?,
                Part::Word(number) => write!(f, "{number:#x}")?,
                Part::Long(number) => write!(f, "{number:#x}")?,
                Part::Bytes(bytes) => show_bytes(f, bytes.lent())?,
                Part::Words(words) => {
                    write!(f, "({} numbers) {:x?}", words.lent().len(), words.lent())?
                }
                Part::Rows(rows) => show_rows(f, rows.lent())?,
                Part::Settings(settings) => show_settings(f, settings)?,
            }
        }
        Ok(())
    }
}

fn show_bytes(f: &mut fmt::Formatter<'_>, bytes: &[u8]) -> fmt::Result {
    write!(f, "({} bytes)", bytes.len())?;
    for run in bytes.chunk_by(|a, b| a == b) {
        match run {
            [byte, ..] if run.len() > 8 => write!(f, " {byte:02X} ({} times)", run.len())?,
            _ => run.iter().try_for_each(|byte| write!(f, " {byte:02X}"))?,
        }
    }
    Ok(())
}

fn show_rows(f: &mut fmt::Formatter<'_>, rows: &[Row]) -> fmt::Result {
    write!(f, "({} rows)", rows.len())?;
    for row in rows {
        write!(f, "\n       ")?;
        for (name, number) in NAMES.iter().zip(row.numbers()) {
            write!(f, " {name} {number:#x}")?;
        }
    }
    Ok(())
}

fn show_settings(f: &mut fmt::Formatter<'_>, settings: &Settings) -> fmt::Result {
    write!(f, "({} records)", settings.types().count())?;
    for (record_type, flag) in settings.flags.into_iter().enumerate() {
        let values = settings.of_type(record_type);
        write!(f, "\n        type {record_type} flag {flag:#x} {values:x?}")?;
    }
    Ok(())
}

struct Explained<'a>(&'a Difference);

impl Display for Explained<'_> {
    fn fmt(&self, f: &mut fmt::Formatter<'_>) -> fmt::Result {
        let [left, right] = self.0.names;
        match &self.0.what {
            What::Panicked { side } => write!(f, "{} panics", self.0.names[*side]),
            What::Given(given) => {
                write!(
                    f,
                    "the call gives\n    {left}: {:?}\n    {right}: {:?}",
                    given[0], given[1]
                )
            }
            What::Lent(calls) => {
                let [first, second] = &**calls;
                write!(
                    f,
                    "the buffers are left as\n  {left}: {}\n  {right}: {}",
                    Shown(first),
                    Shown(second)
                )
            }
            What::Touched { side, left } => {
                let name = self.0.names[*side];
                write!(
                    f,
                    "{name} changed a buffer that is only read, or a byte beside a lent one: {:x?}",
                    left
                )
            }
            What::Searched { record_type, given } => write!(
                f,
                "a search for type {record_type} in what was written gives\n    {left}: {:?}\n    {right}: {:?}",
                given[0], given[1]
            ),
            What::Read { side, read } => {
                let name = self.0.names[*side];
                write!(f, "{name} reads what was written as {read:x?}")
            }
            What::Holding {
                bridge,
                owner,
                reports,
            } => write!(
                f,
                "report on bridge {bridge} under session {owner}\n    {left}: {:?}\n    {right}: {:?}",
                reports[0], reports[1]
            ),
        }
    }
}
