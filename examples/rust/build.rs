//! Links `libsgt.a` from the folder that SGT_LIB names, else from `examples/out`, where `examples/run.sh` puts it.

use std::{env, path::PathBuf};

fn main() {
    let beside = PathBuf::from(env::var("CARGO_MANIFEST_DIR").expect("cargo sets it")).join("../out");
    let folder = env::var("SGT_LIB").map(PathBuf::from).unwrap_or(beside);
    println!("cargo:rerun-if-env-changed=SGT_LIB");
    println!("cargo:rerun-if-changed={}", folder.join("libsgt.a").display());
    println!("cargo:rustc-link-search=native={}", folder.display());
    println!("cargo:rustc-link-lib=static=sgt");
}
