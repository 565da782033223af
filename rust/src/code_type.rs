//! The code types that the PCI Firmware Specification assigns, for [`find_image`](crate::find_image). Each has the name that it has in the
//! C header, without `SLIPWATTLE_CODE_TYPE_`. The others, 4 to 255, are reserved; the call may be asked for them too.

/// Intel x86, PC-AT compatible.
pub const PC_AT: u32 = 0;
/// Open Firmware.
pub const OPEN_FIRMWARE: u32 = 1;
/// Hewlett-Packard PA RISC.
pub const PA_RISC: u32 = 2;
/// UEFI.
pub const UEFI: u32 = 3;
