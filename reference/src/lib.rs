//! The documents in ordinary Rust: what the random trials and the timings compare with.
//!
//! It shares nothing with the proved program but the documents (the modules follow the sections of document 01; `rom` is document 02,
//! a, `edition` its d, `writer` its g and `masks` its h) and the numbers of the two kinds of bridge and of the two editions, 0 and 1.
//! Imports go one way: `bridge` is what the table keeps, others above it work on one bridge, and `table` is on top.
#![no_std]
#![forbid(unsafe_code)]

mod bridge;
mod buses;
mod edition;
mod limits;
mod list;
mod masks;
mod mcfg;
mod osc;
mod place;
mod records;
mod refusal;
mod registers;
mod rom;
mod rows;
mod table;
mod writer;

pub use bridge::{BridgeNumber, SessionNumber};
pub use edition::granted;
pub use masks::Masks;
pub use mcfg::byte_sum;
pub use place::Place;
pub use records::find_record;
pub use refusal::Refusal;
pub use rom::find_image;
pub use rows::BridgeRow;
pub use table::{Holding, Table};
pub use writer::{ExpressSetting, PciSetting, PciXSetting, Settings, read_records, write_records};
