//! Finds the proved archive and links it: `$ZOVATTHA_LIB`, else target/staticlib/libzovattha.a of the
//! repository. Where it is not there, or lacks a function of the header, one line says what to do.

mod archive;

use std::path::{Path, PathBuf};
use std::process::exit;
use std::{env, fs};

fn main() {
    println!("cargo::rerun-if-env-changed=ZOVATTHA_LIB");
    let manifest = PathBuf::from(env::var_os("CARGO_MANIFEST_DIR").unwrap());
    let default = manifest.join("../../target/staticlib/libzovattha.a");
    let archive = env::var_os("ZOVATTHA_LIB").map_or(default, PathBuf::from);
    println!("cargo::rerun-if-changed={}", archive.display());
    let Ok(archive) = archive.canonicalize() else {
        stop(&format!("no archive at {}", archive.display()));
    };
    let declared = declared(&manifest.join("src/ffi.rs"));
    let defined = archive::defined(&archive).unwrap_or_else(|fault| stop(&fault));
    let absent: Vec<_> = declared.iter().filter(|name| !defined.contains(name)).collect();
    if !absent.is_empty() {
        stop(&format!("{} lacks {absent:?}", archive.display()));
    }
    archive::link(&archive);
}

/// One line, and no build: cargo stops at an error that is printed, with no status beside it.
fn stop(fault: &str) -> ! {
    println!("cargo::error={fault}: make it by `tools/archives`, or set ZOVATTHA_LIB");
    exit(0);
}

/// The functions that src/ffi.rs declares.
fn declared(file: &Path) -> Vec<String> {
    println!("cargo::rerun-if-changed={}", file.display());
    let text = fs::read_to_string(file).expect("src/ffi.rs is there");
    text.lines()
        .filter_map(|line| line.trim_start().strip_prefix("pub fn "))
        .filter_map(|rest| rest.split_once('('))
        .map(|(name, _)| name.to_string())
        .filter(|name| name.starts_with("zovattha_"))
        .collect()
}
