//! What build scripts ask of an archive; the differential run's includes this file too.

use std::path::Path;
use std::process::Command;

/// The functions that the archive defines, by `nm`; or why they are not known.
pub fn defined(archive: &Path) -> Result<Vec<String>, String> {
    let output = Command::new("nm").args(["-g", "--defined-only"]).arg(archive).output();
    let output = output.map_err(|_| "nm is not at hand".to_string())?;
    if !output.status.success() {
        return Err(format!("nm cannot read {}", archive.display()));
    }
    let text = String::from_utf8_lossy(&output.stdout);
    let functions = text.lines().filter_map(|line| line.split_once(" T "));
    Ok(functions.map(|(_, name)| name.to_string()).collect())
}

/// Links the archive by its own file name.
pub fn link(archive: &Path) {
    let file = archive.file_name().and_then(|name| name.to_str()).expect("a UTF-8 file name");
    println!("cargo::rustc-link-search=native={}", archive.parent().unwrap().display());
    println!("cargo::rustc-link-lib=static:+verbatim={file}");
}
