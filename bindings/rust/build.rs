//! Finds libcbs.a: in the folder that CBS_LIB_DIR names, or beside this crate in a release, or where scripts/library or the Debian
//! package puts it.
//!
//! Without it the crate can still be checked and documented; whoever links it is told by the warning what is missing.

use std::env;
use std::path::{Path, PathBuf};

fn main() {
    println!("cargo:rerun-if-env-changed=CBS_LIB_DIR");
    let here =
        PathBuf::from(env::var_os("CARGO_MANIFEST_DIR").expect("cargo names the crate's folder"));
    let candidates = match env::var_os("CBS_LIB_DIR") {
        Some(folder) => vec![PathBuf::from(folder)],
        None => vec![
            here.join("../lib"),
            here.join("../../out/cbs/lib"),
            here.join("../../../lib/x86_64-linux-gnu"), // from /usr/share/cbsrun/rust
        ],
    };
    let library = |folder: &Path| folder.join("libcbs.a");
    for folder in &candidates {
        println!("cargo:rerun-if-changed={}", library(folder).display());
    }
    match candidates.iter().find(|folder| library(folder).is_file()) {
        Some(folder) => println!("cargo:rustc-link-search=native={}", folder.display()),
        None => println!(
            "cargo:warning=there is no libcbs.a in {candidates:?}: build it by scripts/library, or name its folder in CBS_LIB_DIR; \
             until then this crate can be checked and documented, but not linked"
        ),
    }
    println!("cargo:rustc-link-lib=static=cbs");
}
