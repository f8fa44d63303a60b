//! Links the archives that `rt lib` makes of the crates below; the crate `canvasfox` links that of the C interface. With
//! BENCH_SHIFT in the environment, the build is the one with its code 16 bytes further on.

use std::path::Path;

const ARCHIVES: [&str; 2] = ["bench_entries", "bench_refused"];

fn main() {
    let package = std::env::var("CARGO_MANIFEST_DIR").expect("cargo says where the package is");
    for archive in ARCHIVES {
        let archives = Path::new(&package)
            .join("../crates")
            .join(archive)
            .join("out");
        println!("cargo:rustc-link-search=native={}", archives.display());
        println!("cargo:rustc-link-lib=static={archive}");
        let file = archives.join(format!("lib{archive}.a"));
        println!("cargo:rerun-if-changed={}", file.display());
    }
    println!("cargo:rustc-check-cfg=cfg(shifted)");
    println!("cargo:rerun-if-env-changed=BENCH_SHIFT");
    if std::env::var_os("BENCH_SHIFT").is_some() {
        println!("cargo:rustc-cfg=shifted");
    }
}
