//! Why a call was refused.
use core::fmt;

/// Why a call was refused. Its number is that of documents 01 and 02 and of the C header. A refused call changes neither the table nor any
/// buffer. Later calls may have refusals of their own, so a `match` has an arm for the rest.
///
/// ```
/// use slipwattle::Refusal;
///
/// assert_eq!(Refusal::NotOwner.number(), 2);
/// assert_eq!(
///     Refusal::NotOwner.to_string(),
///     "the bridge's owner is not the calling session (refusal 2)"
/// );
/// ```
#[derive(Clone, Copy, Debug, PartialEq, Eq)]
#[non_exhaustive]
#[repr(u8)]
pub enum Refusal {
    /// The bridge number is not in the table.
    NoSuchBridge = 1,
    /// The bridge's owner is not the calling session.
    NotOwner = 2,
    /// _OSC framing: the UUID is not 16 bytes, Count is 0 or above 8, or the capability length or the answer length is not 4 x Count.
    Framing = 3,
    /// The bus is outside the bridge's buses; or, reading an address back, it lies in no bridge of this session.
    NoSuchBus = 4,
    /// Device above 31, function above 7, offset above 4095, width not 1, 2 or 4, or offset not a multiple of width.
    BadPlace = 5,
    /// The MCFG table is unsound.
    Mcfg = 6,
    /// The list of bridge rows is unsound.
    Rows = 7,
    /// The deciding record block is unsound.
    RecordBlock = 8,
    /// The deciding record block has no revision 1 record of the asked type.
    NoRecord = 9,
    /// The register list is not 8 numbers, or its Device Control or Link Control is above 65535.
    Registers = 10,
    /// The bridge does not hold control bit 0.
    NoHotPlug = 11,
    /// The ROM is above 16 MiB, or its chain of images is broken before or in its last image.
    Rom = 12,
    /// The ROM's chain of images has none with the asked vendor, device and code type.
    NoImage = 13,
    /// A value of a record to be written is out of range, or a bit is clear in an AND mask and set in its OR mask.
    RecordValue = 14,
    /// The buffer is too short for the records to be written.
    ShortBuffer = 15,
}

impl Refusal {
    const ALL: [Refusal; 15] = [
        Refusal::NoSuchBridge,
        Refusal::NotOwner,
        Refusal::Framing,
        Refusal::NoSuchBus,
        Refusal::BadPlace,
        Refusal::Mcfg,
        Refusal::Rows,
        Refusal::RecordBlock,
        Refusal::NoRecord,
        Refusal::Registers,
        Refusal::NoHotPlug,
        Refusal::Rom,
        Refusal::NoImage,
        Refusal::RecordValue,
        Refusal::ShortBuffer,
    ];

    /// The refusal's number, 1 to 15.
    pub fn number(self) -> u8 {
        self as u8
    }

    fn words(self) -> &'static str {
        match self {
            Refusal::NoSuchBridge => "the bridge number is not in the table",
            Refusal::NotOwner => "the bridge's owner is not the calling session",
            Refusal::Framing => {
                "_OSC framing: the UUID is not 16 bytes, Count is 0 or above 8, or a buffer's length is not 4 x Count"
            }
            Refusal::NoSuchBus => {
                "the bus is outside the bridge's buses, or the address lies in no bridge of this session"
            }
            Refusal::BadPlace => {
                "device above 31, function above 7, offset above 4095, width not 1, 2 or 4, or offset not a multiple of width"
            }
            Refusal::Mcfg => "the MCFG table is unsound",
            Refusal::Rows => "the list of bridge rows is unsound",
            Refusal::RecordBlock => "the deciding record block is unsound",
            Refusal::NoRecord => {
                "the deciding record block has no revision 1 record of the asked type"
            }
            Refusal::Registers => {
                "the register list is not 8 numbers, or its Device Control or Link Control is above 65535"
            }
            Refusal::NoHotPlug => "the bridge does not hold control bit 0, Express hot plug",
            Refusal::Rom => {
                "the ROM is above 16 MiB, or its chain of images is broken before or in its last image"
            }
            Refusal::NoImage => {
                "the ROM's chain of images has none with the asked vendor, device and code type"
            }
            Refusal::RecordValue => {
                "a value of a record to be written is out of range, or a bit is clear in an AND mask and set in its OR mask"
            }
            Refusal::ShortBuffer => "the buffer is too short for the records to be written",
        }
    }
}

/// The refusal of a number that a call of [`sys`](crate::sys) gave. The error is the number itself, 0 or above 15.
impl TryFrom<u8> for Refusal {
    type Error = u8;

    fn try_from(number: u8) -> Result<Refusal, u8> {
        let mut all = Refusal::ALL.into_iter();
        all.find(|r| r.number() == number).ok_or(number)
    }
}

impl fmt::Display for Refusal {
    fn fmt(&self, f: &mut fmt::Formatter<'_>) -> fmt::Result {
        write!(f, "{} (refusal {})", self.words(), self.number())
    }
}

impl core::error::Error for Refusal {}

/// The number of a call as a result. No call gives a number above 15.
pub(crate) fn done(number: u8) -> Result<(), Refusal> {
    if number == 0 {
        return Ok(());
    }
    Err(Refusal::try_from(number).unwrap_or_else(|n| unreachable!("a call gave the number {n}")))
}
