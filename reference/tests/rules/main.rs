//! Document 01, and of document 02 the ROM, a, edition 3.3, d, the writer, g, and the masks, h, on single inputs, through the public calls.

mod bench_sheet;
mod build;
mod edition_rules;
mod errors_seen;
mod mask_rules;
mod osc_rules;
mod place_rules;
mod record_rules;
mod refusal_order;
mod rom_rules;
mod start_rules;
mod writer_rules;
