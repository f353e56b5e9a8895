//! Finds the original's string.rs, as original/build.rs finds the others. The file ends in an
//! attribute whose item was cut off: an empty item is put after it.

use std::{env, fs, path::PathBuf};

fn main() {
    println!("cargo::rerun-if-env-changed=BOA_SRC");
    let manifest = PathBuf::from(env::var_os("CARGO_MANIFEST_DIR").unwrap());
    let out = PathBuf::from(env::var_os("OUT_DIR").unwrap());
    let source = env::var_os("BOA_SRC")
        .map_or_else(|| manifest.join("../../../../shared/docs/src"), PathBuf::from);
    let file = source.join("string.rs");
    println!("cargo::rerun-if-changed={}", file.display());
    let text = fs::read_to_string(&file)
        .unwrap_or_else(|e| panic!("the original is not at hand: {}: {e}", file.display()));
    let laid = out.join("string_text.rs");
    fs::write(&laid, text + "\nconst _: () = ();\n").unwrap();
    fs::write(out.join("string.rs"), format!("#[path = {laid:?}]\npub mod string;\n")).unwrap();
}
