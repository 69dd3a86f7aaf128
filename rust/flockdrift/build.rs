//! Links libflockdrift.a, from the folder that FLOCKDRIFT_LIBRARY names or from where `tools/build flockdrift` makes it.

use std::env;
use std::path::{Path, PathBuf};

fn main() {
    println!("cargo::rerun-if-env-changed=FLOCKDRIFT_LIBRARY");
    let folder = env::var_os("FLOCKDRIFT_LIBRARY").map_or_else(
        || Path::new(env!("CARGO_MANIFEST_DIR")).join("../../target/staticlib"),
        PathBuf::from,
    );
    println!(
        "cargo::rerun-if-changed={}",
        folder.join("libflockdrift.a").display()
    );
    println!("cargo::rustc-link-search=native={}", folder.display());
    println!("cargo::rustc-link-lib=static=flockdrift");
}
