//! What the build scripts of `broken` and `original` do with files. `bench/map` runs the latter, too.

use std::path::{Path, PathBuf};
use std::{env, fs, process};

/// A folder that cargo names.
pub fn folder(name: &str) -> PathBuf {
    env::var_os(name).unwrap_or_else(|| stop(&format!("cargo sets no {name}"))).into()
}

/// A file's text. The build is done again where it changes.
pub fn read(file: &Path) -> String {
    println!("cargo::rerun-if-changed={}", file.display());
    fs::read_to_string(file).unwrap_or_else(|error| stop(&format!("{}: {error}", file.display())))
}

/// Ends the build, in the name of the crate that is built.
pub fn stop(why: &str) -> ! {
    eprintln!("{}: {why}", env!("CARGO_PKG_NAME"));
    process::exit(1)
}
