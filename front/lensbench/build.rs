//! Links liblensbench.a. It is looked for in LENSBENCH_LIB_DIR, or else where front/lib puts it.
use std::path::{Path, PathBuf};

/// The layout of records that src/ffi.rs was written for.
const ABI: &str = "#define LENS_ABI 5";

fn main() {
    println!("cargo:rerun-if-env-changed=LENSBENCH_LIB_DIR");
    println!("cargo:rerun-if-changed=build.rs");
    if let Err(what) = link() {
        eprintln!("lensbench: {what}");
        std::process::exit(1);
    }
}

fn link() -> Result<(), String> {
    let folder = folder()?;
    let archive = folder.join("liblensbench.a");
    println!("cargo:rerun-if-changed={}", archive.display());
    if !archive.is_file() {
        return Err(format!("{} is missing: `front/lib` builds it, or LENSBENCH_LIB_DIR names the folder that has it", archive.display()));
    }
    check_layout(&folder.join("lensbench.h"))?;
    println!("cargo:rustc-link-search=native={}", folder.display());
    println!("cargo:rustc-link-lib=static=lensbench");
    Ok(())
}

fn folder() -> Result<PathBuf, String> {
    if let Ok(given) = std::env::var("LENSBENCH_LIB_DIR") {
        return Ok(PathBuf::from(given));
    }
    let here = std::env::var("CARGO_MANIFEST_DIR").map_err(|e| format!("CARGO_MANIFEST_DIR: {e}"))?;
    Ok(Path::new(&here).join("../../target/front"))
}

/// The header that came with the archive has this crate's layout. It is not watched: front/lib copies it anew each time, and another layout is another archive.
fn check_layout(header: &Path) -> Result<(), String> {
    let text = std::fs::read_to_string(header).map_err(|e| format!("{}: {e}", header.display()))?;
    if text.lines().any(|line| line.trim() == ABI) {
        return Ok(());
    }
    Err(format!("{} has no line `{ABI}`: this crate is for another layout of the records", header.display()))
}
