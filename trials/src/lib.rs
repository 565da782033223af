//! Random trials and exhaustive comparisons of the proved library with the reference implementation.

pub mod blocks;
pub mod buffer;
pub mod call;
pub mod comparison;
pub mod counts;
pub mod editions;
pub mod exhaustive;
pub mod given;
pub mod lists;
pub mod mcfg;
pub mod part;
pub mod places;
pub mod print;
pub mod random;
pub mod random_trials;
pub mod requests;
pub mod roms;
pub mod row;
pub mod rows;
pub mod service;
pub mod settings;
pub mod shrink;
pub mod sums;
pub mod ways;
