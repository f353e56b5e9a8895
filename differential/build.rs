//! Finds the proved archives and says which functions they have.
//!
//! `$ZOVATTHA_LIB`, else target/staticlib/libzovattha.a, has the C functions; `$EXPORTS_LIB`, else
//! target/staticlib/libexports.a, the test exports. An archive that is not there is no error: its
//! functions are then reported as absent. One that can't be read or linked is.

#[path = "../bindings/rust/archive.rs"]
mod archive;

use std::env;
use std::path::PathBuf;

fn main() {
    // Each function that is found becomes a cfg of its name; no name is known beforehand.
    println!("cargo::rustc-check-cfg=cfg(any())");
    let mut found = Vec::new();
    for (variable, name) in [("ZOVATTHA_LIB", "zovattha"), ("EXPORTS_LIB", "exports")] {
        println!("cargo::rerun-if-env-changed={variable}");
        let archive = place(variable, name);
        println!("cargo::rerun-if-changed={}", archive.display());
        if archive.is_file() {
            let archive = archive.canonicalize().expect("the archive has a path");
            let symbols = archive::defined(&archive).expect("the archive's symbols are known");
            let prefix = format!("{name}_");
            found.extend(symbols.into_iter().filter(|symbol| symbol.starts_with(&prefix)));
            archive::link(&archive);
        }
    }
    for symbol in &found {
        println!("cargo::rustc-cfg={symbol}");
    }
    println!("cargo::rustc-env=LINKED_SYMBOLS={}", found.join(" "));
}

/// Where the archive is looked for.
fn place(variable: &str, name: &str) -> PathBuf {
    let manifest = PathBuf::from(env::var_os("CARGO_MANIFEST_DIR").unwrap());
    let default = manifest.join(format!("../target/staticlib/lib{name}.a"));
    env::var_os(variable).map_or(default, PathBuf::from)
}
