//! Links the engine's archive when the feature `engine` is on.
//! LUFANELIS_LIB names the directory or the archive itself; by default it is the project's crates/capi/out.

use std::path::{Path, PathBuf};

fn main() {
    println!("cargo:rerun-if-env-changed=LUFANELIS_LIB");
    if std::env::var_os("CARGO_FEATURE_ENGINE").is_none() {
        return;
    }
    let given = std::env::var_os("LUFANELIS_LIB").map(PathBuf::from);
    let path = given.unwrap_or_else(|| Path::new(env!("CARGO_MANIFEST_DIR")).join("../../crates/capi/out/libcapi.a"));
    let archive = if path.is_dir() { path.join("libcapi.a") } else { path };
    println!("cargo:rerun-if-changed={}", archive.display());
    let directory = archive.parent().unwrap_or(Path::new("."));
    let name = archive.file_stem().and_then(|s| s.to_str()).unwrap_or("libcapi");
    println!("cargo:rustc-link-search=native={}", directory.display());
    println!("cargo:rustc-link-lib=static={}", name.trim_start_matches("lib"));
}
