//! One platform service for the PCI host bridges of several sessions, over a proved library.
//!
//! A [`Table`] of host bridges is started from the bytes of an ACPI MCFG table and a list of rows. Each bridge has one owner, and
//! every call on a table carries the number of the session that makes it: at a bridge of another session it is refused, and changes
//! nothing. The calls answer _OSC, hand out ECAM configuration addresses and read them back, find and write _HPX setting records, find
//! expansion ROM images, and compute register values. Nothing is written to hardware.
//!
//! The calls are written in Rattle and proved against their definitions; this crate lends them its buffers, so that what the C
//! header asks of its caller holds by type. It has no dependency, needs no allocator and no `std`; of the platform the library
//! takes `memcpy` alone. The build needs the Rattle toolchain, which proves the library first.
//!
//! # Example
//!
//! ```
//! use slipwattle::osc::{CONTROL_ALL_3_0, OSC_COUNT, OSC_REVISION, OSC_UUID, QUERY_FLAG};
//! use slipwattle::{
//!     BridgeKind, BridgeNumber, BridgeRow, Edition, Place, Refusal, SessionNumber, Table,
//! };
//!
//! // One MCFG entry: base 0xE0000000, segment 0, buses 0 to 255.
//! let mut mcfg = [0; 60];
//! mcfg[..10].copy_from_slice(b"MCFG\x3C\0\0\0\x01\xC7"); // length 60, revision 1, checksum
//! mcfg[47] = 0xE0;
//! mcfg[55] = 255;
//! // A class bridge and a live one.
//! let (class, live) = (SessionNumber(1), SessionNumber(2));
//! let row = |owner, first_bus, last_bus| BridgeRow {
//!     permitted: CONTROL_ALL_3_0,
//!     segment: 0,
//!     owner,
//!     first_bus,
//!     last_bus,
//!     kind: BridgeKind::Express,
//!     edition: Edition::V3_0,
//! };
//! let mut table = Table::start(&mcfg, &[row(class, 0, 15), row(live, 16, 31)])?;
//! let (class_bridge, live_bridge) = (BridgeNumber(0), BridgeNumber(1));
//!
//! // _OSC: a query for every control bit, then the taking call for those that were granted.
//! let mut ask = |status, control| -> Result<[u32; 3], Refusal> {
//!     let capabilities = [status, 0, control].map(u32::to_le_bytes);
//!     let mut answer = [[0; 4]; 3];
//!     let (asked, answered) = (capabilities.as_flattened(), answer.as_flattened_mut());
//!     table.osc(class, class_bridge, OSC_REVISION, OSC_COUNT, &OSC_UUID, asked, answered)?;
//!     Ok(answer.map(u32::from_le_bytes))
//! };
//! let [status, _, granted] = ask(QUERY_FLAG, CONTROL_ALL_3_0)?;
//! assert_eq!((status, granted), (0, CONTROL_ALL_3_0));
//! ask(0, granted)?;
//! assert_eq!(table.report(class, class_bridge)?.held, CONTROL_ALL_3_0);
//!
//! // An address, and the place that it leads to.
//! let place = Place { bridge: class_bridge, bus: 1, device: 2, function: 3, offset: 0x10 };
//! let address = table.address(class, place, 4)?;
//! assert_eq!(address, 0xE011_3010);
//! assert_eq!(table.locate(class, address)?, place);
//!
//! // The class has no way to the live bridge.
//! let live_place = Place { bridge: live_bridge, bus: 17, ..place };
//! assert_eq!(table.address(class, live_place, 4), Err(Refusal::NotOwner));
//! # Ok::<(), Refusal>(())
//! ```

#![no_std]
#![deny(missing_docs, clippy::undocumented_unsafe_blocks)]

pub mod code_type;
pub mod osc;
mod records;
mod refusal;
mod rom;
mod settings;
pub mod sys;
mod table;
mod types;

pub use records::find_record;
pub use refusal::Refusal;
pub use rom::find_image;
pub use settings::Settings;
#[doc(inline)]
pub use sys::{ExpressSetting, Masks, PciSetting, PciXSetting};
pub use sys::{MAX_ROM, MAX_ROWS, MAX_WRITTEN, REGISTERS};
pub use table::Table;
pub use types::{BridgeKind, BridgeNumber, BridgeRow, Edition, Holding, Place, SessionNumber};
