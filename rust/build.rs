//! Links `libninelace.a`: from the folder that NINELACE_DIR names, or from where c/build.sh of a clone writes it.

use std::{env, path::PathBuf};

fn main() {
    let folder = env::var_os("NINELACE_DIR")
        .map(PathBuf::from)
        .unwrap_or_else(|| PathBuf::from(env::var_os("CARGO_MANIFEST_DIR").unwrap()).join("../c/out"));
    println!("cargo:rustc-link-search=native={}", folder.display());
    println!("cargo:rustc-link-lib=static=ninelace");
    println!("cargo:rerun-if-env-changed=NINELACE_DIR");
}
