//! Links the proved static library, if it has been built. Without it only the peer and the reference are there.

use std::path::Path;

fn main() {
    println!("cargo::rustc-check-cfg=cfg(proved)");
    let folder = Path::new(env!("CARGO_MANIFEST_DIR")).join("../target/staticlib");
    let archive = folder.join("libflockdrift.a");
    println!("cargo::rerun-if-changed={}", archive.display());
    if archive.exists() {
        println!("cargo::rustc-cfg=proved");
        println!("cargo::rustc-link-search=native={}", folder.display());
        println!("cargo::rustc-link-lib=static=flockdrift");
    }
}
