//! Finds the original's text and lays it out for rustc, unchanged, under OUT_DIR.
//!
//! The text is looked for at `$BOA_SRC`, else at `../shared/docs/src` beside the repository.

use std::path::{Path, PathBuf};
use std::{env, fs, os::unix::fs::symlink};

/// The files taken from the original.
const TAKEN: [&str; 4] =
    ["builtins/date/mod.rs", "builtins/date/utils.rs", "context/hooks.rs", "value/integer.rs"];

fn main() {
    println!("cargo::rerun-if-env-changed=BOA_SRC");
    println!("cargo::rerun-if-changed=src/utils_exports.rs");
    let manifest = PathBuf::from(env::var_os("CARGO_MANIFEST_DIR").unwrap());
    let out = PathBuf::from(env::var_os("OUT_DIR").unwrap());
    let source = env::var_os("BOA_SRC")
        .map_or_else(|| manifest.join("../../../shared/docs/src"), PathBuf::from);
    for name in TAKEN {
        let file = source.join(name);
        assert!(file.is_file(), "the original is not at hand: {}", file.display());
        println!("cargo::rerun-if-changed={}", file.display());
    }
    let source = fs::canonicalize(&source).unwrap();
    lay_out_date(&source, &manifest, &out);
    println!("cargo::rustc-env=BOA_SRC_FOUND={}", source.display());
}

/// date/mod.rs as it stands; beside it, as its `mod utils`, the text of utils.rs with the exports
/// to what is private below it.
fn lay_out_date(source: &Path, manifest: &Path, out: &Path) {
    let date = out.join("date");
    fs::create_dir_all(&date).unwrap();
    let link = date.join("mod.rs");
    let _ = fs::remove_file(&link);
    symlink(source.join("builtins/date/mod.rs"), &link).unwrap();
    let utils = source.join("builtins/date/utils.rs");
    let exports = manifest.join("src/utils_exports.rs");
    let text = format!("include!({utils:?});\ninclude!({exports:?});\n");
    fs::write(date.join("utils.rs"), text).unwrap();
    fs::write(out.join("date.rs"), format!("#[path = {link:?}]\npub mod date;\n")).unwrap();
}
