//! Links the proved library, when it is asked for.

use std::env;
use std::path::PathBuf;

/// The folder of liblibc_c.a, which the compiler of the proved code brings along: allocation over malloc and free.
const ALLOCATION: &str = "/opt/rattle/c";

fn main() {
    println!("cargo:rerun-if-changed=build.rs");
    println!("cargo:rerun-if-env-changed=DESKTERN_LIBRARY");
    if env::var_os("CARGO_FEATURE_LIBRARY").is_none() {
        return;
    }
    // The folder of libdesktern_c.a, if it is not where the repository's build leaves it.
    let folder = env::var_os("DESKTERN_LIBRARY").map_or_else(
        || PathBuf::from(env::var_os("CARGO_MANIFEST_DIR").expect("cargo tells the package's folder")).join("../crates/desktern_c/out"),
        PathBuf::from,
    );
    let archive = folder.join("libdesktern_c.a");
    println!("cargo:rerun-if-changed={}", archive.display());
    assert!(archive.exists(), "there is no {}: build it by rt lib, in the folder crates/desktern_c", archive.display());
    println!("cargo:rustc-link-search=native={}", folder.display());
    println!("cargo:rustc-link-search=native={ALLOCATION}");
    // The archive that needs allocation comes before the one that has it.
    println!("cargo:rustc-link-lib=static=desktern_c");
    println!("cargo:rustc-link-lib=static=libc_c");
}
