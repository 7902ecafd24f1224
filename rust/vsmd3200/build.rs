//! Finds the archive of the library and has it linked.

use std::env;
use std::path::{Path, PathBuf};

const ARCHIVE: &str = "libvsmd.a";

fn from_cargo(name: &str) -> String {
    env::var(name).unwrap_or_default()
}

/// The name that `tools/build library --target` knows the machine by that is compiled for; none
/// for x86-64 with a system, whose archive comes without a name.
fn target() -> Option<String> {
    let bare = from_cargo("CARGO_CFG_TARGET_OS") == "none";
    match from_cargo("CARGO_CFG_TARGET_ARCH").as_str() {
        "x86_64" if !bare => None,
        "x86_64" => Some("x86-64-bare".into()),
        "arm" => Some("armv7".into()),
        other => Some(other.into()),
    }
}

/// Where the repository puts the archive, and what puts it there.
fn built() -> (PathBuf, String) {
    let wrapper = from_cargo("CARGO_MANIFEST_DIR");
    let repository = Path::new(&wrapper).ancestors().nth(2);
    let archives = repository.unwrap_or(Path::new(&wrapper)).join("build/lib");
    match target() {
        None => (archives, "tools/build library".into()),
        Some(name) => (
            archives.join(&name),
            format!("tools/build library --target {name}"),
        ),
    }
}

fn main() {
    let (directory, build) = built();
    let directory = env::var_os("VSMD_LIB_DIR").map_or(directory, PathBuf::from);
    let archive = directory.join(ARCHIVE);
    println!("cargo::rerun-if-env-changed=VSMD_LIB_DIR");
    println!("cargo::rerun-if-changed={}", archive.display());
    if !archive.is_file() {
        println!(
            "cargo::error=looked for {ARCHIVE} in {}, and it is not there. `{build}` builds it; \
             VSMD_LIB_DIR names the folder where it is, if it is another",
            directory.display()
        );
        return;
    }
    println!("cargo::rustc-link-search=native={}", directory.display());
    println!("cargo::rustc-link-lib=static=vsmd");
}
