//! Links the static library of the proved calls: `../../target/staticlib/libfinder.a`, or that of the folder that `FINDER_LIBRARY` names.

use std::path::PathBuf;

fn main() {
    let own = PathBuf::from(std::env::var_os("CARGO_MANIFEST_DIR").expect("cargo sets it"));
    let folder = std::env::var_os("FINDER_LIBRARY")
        .map_or_else(|| own.join("../../target/staticlib"), PathBuf::from);
    let library = folder.join("libfinder.a");
    println!("cargo::rerun-if-env-changed=FINDER_LIBRARY");
    println!("cargo::rerun-if-changed={}", library.display());
    if !library.is_file() {
        println!(
            "cargo::error=the proved calls are not there: no {}; run `make library` first",
            library.display()
        );
        return;
    }
    println!("cargo::rustc-link-search=native={}", folder.display());
    println!("cargo::rustc-link-lib=static=finder");
}
