//! Links the static library, which `rt lib` in crates/picman_ffi writes to its out/. PICMAN_FFI_DIR names another folder.

use std::env;
use std::path::PathBuf;

fn main() {
    let beside = PathBuf::from(env::var("CARGO_MANIFEST_DIR").unwrap()).join("../crates/picman_ffi/out");
    let folder = env::var_os("PICMAN_FFI_DIR").map_or(beside, PathBuf::from);
    let library = folder.join("libpicman_ffi.a");
    println!("cargo:rerun-if-env-changed=PICMAN_FFI_DIR");
    println!("cargo:rerun-if-changed={}", library.display());
    if !library.exists() {
        panic!("{} is missing: `rt lib` in crates/picman_ffi writes it", library.display());
    }
    println!("cargo:rustc-link-search=native={}", folder.display());
    println!("cargo:rustc-link-lib=static=picman_ffi");
    println!("cargo:rustc-env=PICMAN_LIBRARY={}", library.display());
}
