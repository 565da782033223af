//! One argument of a call, whatever it is.

use crate::buffer::{Buffer, Bytes, Item, Words};
use crate::row::{NUMBERS, Row, Rows};
use crate::settings::Settings;

pub enum Part<'a> {
    Byte(&'a mut u8),
    Word(&'a mut u32),
    Long(&'a mut u64),
    Bytes(&'a mut Bytes),
    Words(&'a mut Words),
    Rows(&'a mut Rows),
    Settings(&'a mut Settings),
}

/// An argument of each type is its kind of part.
macro_rules! part_of {
    ($($part:ident: $type:ty),*) => {
        $(impl<'a> From<&'a mut $type> for Part<'a> {
            fn from(argument: &'a mut $type) -> Part<'a> {
                Part::$part(argument)
            }
        })*
    };
}

part_of!(Byte: u8, Word: u32, Long: u64, Bytes: Bytes, Words: Words, Rows: Rows, Settings: Settings);

impl Part<'_> {
    /// Whether it is lent, and so has a length.
    pub fn is_buffer(&self) -> bool {
        matches!(self, Part::Bytes(_) | Part::Words(_) | Part::Rows(_))
    }

    /// The number, or the numbers of what is lent.
    pub fn numbers(&self) -> Vec<u64> {
        match self {
            Part::Byte(number) => vec![u64::from(**number)],
            Part::Word(number) => vec![u64::from(**number)],
            Part::Long(number) => vec![**number],
            Part::Bytes(bytes) => bytes.lent().iter().copied().map(u64::from).collect(),
            Part::Words(words) => words.lent().iter().copied().map(u64::from).collect(),
            Part::Rows(rows) => rows.lent().iter().flat_map(Row::numbers).collect(),
            Part::Settings(settings) => settings.numbers(),
        }
    }

    /// Sets what `numbers` gives. A number that is too large loses its upper bits, numbers that are no whole row are left out.
    pub fn set_numbers(&mut self, numbers: &[u64]) {
        match self {
            Part::Byte(number) => **number = numbers[0] as u8,
            Part::Word(number) => **number = numbers[0] as u32,
            Part::Long(number) => **number = numbers[0],
            Part::Bytes(bytes) => replace(bytes, numbers, |number| *number as u8),
            Part::Words(words) => replace(words, numbers, |number| *number as u32),
            Part::Rows(rows) => replace(rows, numbers.as_chunks::<NUMBERS>().0, Row::from_numbers),
            Part::Settings(settings) => **settings = Settings::from_numbers(numbers),
        }
    }
}

fn replace<T: Item, N>(buffer: &mut Buffer<T>, content: &[N], item: impl Fn(&N) -> T) {
    buffer.replace(&content.iter().map(item).collect::<Vec<_>>());
}
