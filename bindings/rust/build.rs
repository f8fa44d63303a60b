//! Links the archive that `rt lib` makes in crates/capi.

use std::env;
use std::path::PathBuf;

fn main() {
    let manifest = env::var_os("CARGO_MANIFEST_DIR").expect("cargo says where the package is");
    let folder = PathBuf::from(manifest).join("../../crates/capi/out");
    let archive = folder.join("libcapi.a");
    assert!(
        archive.is_file(),
        "{} is not there: run `rt lib` in crates/capi first",
        archive.display()
    );
    println!("cargo:rustc-link-search=native={}", folder.display());
    println!("cargo:rustc-link-lib=static=capi");
    println!("cargo:rerun-if-changed={}", archive.display());
}
