//! Finds the static library `libexports.a`, or has `rt` make it, and links it.

use std::env;
use std::path::{Path, PathBuf};
use std::process::Command;

/// The directory to look in, instead of the repository's own.
const VARIABLE: &str = "DELZHOMO_LIB_DIR";
const FILE: &str = "libexports.a";
/// The crate of the repository that it is made of.
const CRATE: &str = "crates/exports";

fn main() {
    println!("cargo::rerun-if-changed=build.rs");
    println!("cargo::rerun-if-env-changed={VARIABLE}");
    match library_dir() {
        Ok(dir) => link(&dir),
        Err(missing) => println!("cargo::error={missing}"),
    }
}

fn link(dir: &Path) {
    // the compiler need not run where this program does
    let dir = std::path::absolute(dir).unwrap_or_else(|_| dir.to_path_buf());
    println!("cargo::rerun-if-changed={}", dir.join(FILE).display());
    println!("cargo::rustc-link-search=native={}", dir.display());
    println!("cargo::rustc-link-lib=static=exports");
}

/// Where the library is: the named directory, or the repository's, or there after `rt` has made it.
fn library_dir() -> Result<PathBuf, String> {
    if let Some(named) = env::var_os(VARIABLE) {
        return named_dir(PathBuf::from(named));
    }
    let root = Path::new(env!("CARGO_MANIFEST_DIR")).join("../..");
    let dir = root.join(CRATE).join("out");
    if has_library(&dir) {
        return Ok(dir);
    }
    make(&root)?;
    if has_library(&dir) {
        Ok(dir)
    } else {
        Err(format!(
            "`rt lib` in {CRATE} ended well but left no {FILE} in {}",
            dir.display()
        ))
    }
}

/// A directory that was asked for by name is taken or refused, never replaced by another.
fn named_dir(dir: PathBuf) -> Result<PathBuf, String> {
    if has_library(&dir) {
        Ok(dir)
    } else {
        Err(format!(
            "{VARIABLE} is {}, and there is no {FILE} in it",
            dir.display()
        ))
    }
}

fn has_library(dir: &Path) -> bool {
    dir.join(FILE).is_file()
}

fn make(root: &Path) -> Result<(), String> {
    let status = Command::new("rt")
        .arg("lib")
        .current_dir(root.join(CRATE))
        .status()
        .map_err(|error| {
            format!(
                "no {FILE}: set {VARIABLE} to the directory that has it, or put the Rattle toolchain's \
                 `rt` on the path to have it made (starting `rt` failed: {error})"
            )
        })?;
    if status.success() {
        Ok(())
    } else {
        Err(format!(
            "no {FILE}: `rt lib` failed ({status}); run it in the repository's {CRATE} to see why, \
             or set {VARIABLE} to a directory that has the library"
        ))
    }
}
