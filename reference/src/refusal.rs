//! Refusal numbers.

/// Why a call was refused; number 0, done, is `Ok`.
#[derive(Clone, Copy, Debug, PartialEq, Eq)]
#[repr(u8)]
pub enum Refusal {
    /// The bridge number is not in the table.
    NoSuchBridge = 1,
    /// The bridge's owner is not the calling session.
    NotOwner = 2,
    /// The _OSC framing is wrong.
    Framing = 3,
    /// The bus is outside the bridge's buses, or the address is in no bridge of the session.
    NoSuchBus = 4,
    /// Device, function, offset or width is out of range, or the offset is not aligned.
    BadPlace = 5,
    /// The MCFG table is unsound.
    Mcfg = 6,
    /// The bridge list is unsound.
    Rows = 7,
    /// The deciding record block is unsound.
    RecordBlock = 8,
    /// The deciding record block has no such record.
    NoRecord = 9,
    /// The register list is not eight numbers, or a 16-bit register is above 65535.
    Registers = 10,
    /// The bridge does not hold Express hot plug control.
    NoHotPlug = 11,
    /// The ROM is above 16 MiB or its chain of images is broken.
    Rom = 12,
    /// The chain of images has none with this vendor, device and code type.
    NoImage = 13,
    /// A value of a record to be written is out of range, or a pair of its masks has no meaning.
    RecordValue = 14,
    /// The buffer is too short for the records to be written.
    ShortBuffer = 15,
}

impl Refusal {
    /// The number in document 01; 12 and 13 are of document 02, a, and 14 and 15 of its g.
    pub fn number(self) -> u8 {
        self as u8
    }
}
