//! Links libfontcrunch.a, which `tools/library` writes to the repository's folder build.

use std::env;
use std::fs;
use std::path::{Path, PathBuf};
use std::process;

/// Names the folder that holds the library, where that is not the default.
const FOLDER_VARIABLE: &str = "FONTCRUNCH_LIB_DIR";
const LIBRARY: &str = "libfontcrunch.a";

fn main() {
    println!("cargo:rerun-if-env-changed={FOLDER_VARIABLE}");
    let folder = library_folder();
    println!("cargo:rerun-if-changed={}", folder.join(LIBRARY).display());
    stop_unless_linkable(&folder);
    println!("cargo:rustc-link-search=native={}", folder.display());
    println!("cargo:rustc-link-lib=static=fontcrunch");
}

fn library_folder() -> PathBuf {
    match env::var_os(FOLDER_VARIABLE) {
        Some(folder) => PathBuf::from(folder),
        None => Path::new(&variable("CARGO_MANIFEST_DIR")).join("../../build"),
    }
}

fn stop_unless_linkable(folder: &Path) {
    let Ok(archive) = fs::read(folder.join(LIBRARY)) else {
        stop(&format!(
            "there is no {LIBRARY} in {}\n\
             `tools/library`, run at the repository's top, writes it to build.\n\
             If it is elsewhere, set {FOLDER_VARIABLE} to its folder, as an absolute path.",
            folder.display()
        ))
    };
    let target = variable("TARGET");
    let processor = processor_of(&archive);
    if !target.starts_with(&format!("{processor}-")) || !target.contains("-linux-") {
        stop(&format!("{LIBRARY} is for {processor} Linux, and this build is for {target}"));
    }
}

/// The processor that the archive's first object file is for: two bytes of its ELF header, which starts with these four.
fn processor_of(archive: &[u8]) -> &'static str {
    let header = archive.windows(20).find(|bytes| bytes.starts_with(b"\x7fELF"));
    match header.map(|bytes| u16::from_le_bytes([bytes[18], bytes[19]])) {
        Some(62) => "x86_64",
        Some(183) => "aarch64",
        _ => "no known",
    }
}

fn variable(name: &str) -> String {
    env::var(name).unwrap_or_else(|_| stop(&format!("cargo has not set {name}")))
}

fn stop(message: &str) -> ! {
    eprintln!("fontcrunch: {message}");
    process::exit(1);
}
