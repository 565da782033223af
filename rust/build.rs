//! Links the proved library.
mod archive;

fn main() -> std::process::ExitCode {
    archive::link("slipwattle")
}
