//! Links the byte sums by themselves. The build script of slipwattle has ended by now, since that package says what it links; so `rt` is
//! not run twice at once.
#[path = "../rust/archive.rs"]
mod archive;

fn main() -> std::process::ExitCode {
    archive::link("byte_sums")
}
