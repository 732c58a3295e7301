//! Links libcontroller.a from the folder that LUFFGRAVEL_LIB names, else a copy of what `rt lib` writes in the
//! repository's crates/controller_c.

use std::path::{Path, PathBuf};
use std::{env, fs, process};

fn main() {
    println!("cargo:rerun-if-env-changed=LUFFGRAVEL_LIB");
    if let Err(fault) = link() {
        eprintln!("{fault}");
        process::exit(1);
    }
}

fn link() -> Result<(), String> {
    let target = env::var("TARGET").map_err(|error| format!("TARGET: {error}"))?;
    if !target.starts_with("x86_64-") || !target.contains("-linux-") {
        return Err(format!("the archive is for x86-64 Linux, and this is a build for {target}"));
    }
    let archive = match env::var_os("LUFFGRAVEL_LIB") {
        Some(folder) => there(Path::new(&folder).join("libcontroller.a"))?,
        None => copied()?,
    };
    let folder = archive.parent().ok_or("the archive lies in no folder")?;
    println!("cargo:rustc-link-search=native={}", folder.display());
    println!("cargo:rustc-link-lib=static=controller");
    // What depends on this crate, as a test that compiles C, is told the same archive.
    println!("cargo:rustc-env=LUFFGRAVEL_ARCHIVE={}", archive.display());
    Ok(())
}

/// A copy of the archive of crates/controller_c under the name by which it is linked.
fn copied() -> Result<PathBuf, String> {
    let built = there(Path::new(env!("CARGO_MANIFEST_DIR")).join("../../crates/controller_c/out/libcontroller_c.a"))?;
    let folder = env::var_os("OUT_DIR").ok_or("OUT_DIR is not set")?;
    let archive = Path::new(&folder).join("libcontroller.a");
    fs::copy(built, &archive).map_err(|error| format!("{}: {error}", archive.display()))?;
    Ok(archive)
}

/// An archive that has to be there already.
fn there(archive: PathBuf) -> Result<PathBuf, String> {
    let shown = archive.display();
    println!("cargo:rerun-if-changed={shown}");
    if !archive.is_file() {
        return Err(format!("{shown} is not there: run `rt lib` in crates/controller_c, or let LUFFGRAVEL_LIB name the folder of libcontroller.a"));
    }
    Ok(archive)
}
