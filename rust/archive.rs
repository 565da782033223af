//! Proves a library with the Rattle toolchain, and links a copy of the archive that it writes. For build scripts.
use std::path::Path;
use std::process::{Command, ExitCode};
use std::{env, fs};

/// All that a build script does.
pub fn link(library: &str) -> ExitCode {
    match prove_and_link(library) {
        Ok(()) => ExitCode::SUCCESS,
        Err(why) => {
            eprintln!("{library}: {why}");
            ExitCode::FAILURE
        }
    }
}

fn prove_and_link(library: &str) -> Result<(), String> {
    let manifest = env::var("CARGO_MANIFEST_DIR").map_err(|e| e.to_string())?;
    let out = env::var("OUT_DIR").map_err(|e| e.to_string())?;
    let root = Path::new(&manifest)
        .parent()
        .ok_or("this package has no folder above it")?;
    for read in ["crates.txt", "rust/archive.rs", "tools/archive"] {
        println!("cargo:rerun-if-changed={}", root.join(read).display());
    }
    // Each crate's sources; beside them `rt` writes what it makes.
    for of_crate in fs::read_dir(root.join("crates")).map_err(|e| e.to_string())? {
        let of_crate = of_crate.map_err(|e| e.to_string())?.path();
        for read in ["src", "specs", "proofs"].map(|part| of_crate.join(part)) {
            if read.exists() {
                println!("cargo:rerun-if-changed={}", read.display());
            }
        }
    }
    println!("cargo:rerun-if-changed=build.rs");
    prove(root, library)?;
    // A copy, since the next build of the archive writes it anew.
    let file = format!("lib{library}.a");
    let archive = root.join("target/staticlib").join(&file);
    fs::copy(&archive, Path::new(&out).join(&file))
        .map_err(|e| format!("{} cannot be copied: {e}", archive.display()))?;
    println!("cargo:rustc-link-search=native={out}");
    println!("cargo:rustc-link-lib=static={library}");
    Ok(())
}

/// `tools/archive` in the repository's root.
fn prove(root: &Path, library: &str) -> Result<(), String> {
    let run = Command::new(root.join("tools/archive"))
        .arg(library)
        .output()
        .map_err(|e| {
            format!("`tools/archive` cannot be run ({e}): it proves the library with the Rattle toolchain")
        })?;
    if run.status.success() {
        return Ok(());
    }
    Err(format!(
        "`tools/archive {library}` in {} failed ({}), so there is no proved library to link. It wrote:\n{}{}",
        root.display(),
        run.status,
        String::from_utf8_lossy(&run.stdout),
        String::from_utf8_lossy(&run.stderr)
    ))
}
