//! The limits of document 01, four of them as document 02, e, has them, and that of document 02, a, each named once.

/// Most rows of a starting list, so most bridges of a table.
pub(crate) const MAX_ROWS: usize = 64;
/// Most entries of an MCFG table.
pub(crate) const MAX_ENTRIES: usize = 64;
/// Highest session number that may own a bridge.
pub(crate) const MAX_OWNER: u8 = 63;
/// Most bytes of a record block.
pub(crate) const MAX_BLOCK: usize = 4096;
/// Most DWORDs of an _OSC call.
pub(crate) const MAX_COUNT: u32 = 8;
/// Highest device number on a bus.
pub(crate) const MAX_DEVICE: u32 = 31;
/// Highest function number of a device.
pub(crate) const MAX_FUNCTION: u32 = 7;
/// Highest offset in the configuration space of a function.
pub(crate) const MAX_OFFSET: u32 = 4095;
/// Highest cache line size and latency timer of a PCI setting record.
pub(crate) const MAX_BYTE: u32 = 255;
/// Highest number that tells whether SERR or PERR is enabled.
pub(crate) const MAX_ENABLE: u32 = 1;
/// Highest read count of a PCI-X setting record.
pub(crate) const MAX_READ_COUNT: u32 = 3;
/// Highest split count of a PCI-X setting record.
pub(crate) const MAX_SPLITS: u32 = 7;
/// Highest value of a 16-bit register, and of a mask for it.
pub(crate) const MAX_WORD: u32 = 65535;
/// Most bytes of a ROM: 16 MiB, of document 02, a.
pub(crate) const MAX_ROM: usize = 16 << 20;
