//! Says where the static library lies: in the folder that `GRAFCET_LIB` names,
//! else where `rt lib` in crates/host writes it.

use std::path::PathBuf;

fn main() {
    let folder = std::env::var_os("GRAFCET_LIB").map_or_else(
        || PathBuf::from(env!("CARGO_MANIFEST_DIR")).join("../../crates/host/out"),
        PathBuf::from,
    );
    let archive = folder.join("libhost.a");
    assert!(archive.exists(), "no {}: run `rt lib` in crates/host first", archive.display());
    println!("cargo:rerun-if-env-changed=GRAFCET_LIB");
    println!("cargo:rerun-if-changed={}", archive.display());
    println!("cargo:rustc-link-search=native={}", folder.display());
    println!("cargo:rustc-link-lib=static=host");
}
