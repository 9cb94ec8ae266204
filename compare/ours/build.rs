//! Links our three static libraries, `libcalls.a`, `libtable_calls.a` and `libnetcode.a`, from where
//! `tools/archives` writes them or from OURS_LIB.

use std::env;
use std::path::PathBuf;

fn main() {
    println!("cargo:rerun-if-env-changed=OURS_LIB");
    let folder = match env::var_os("OURS_LIB") {
        Some(folder) => PathBuf::from(folder),
        None => PathBuf::from(env::var_os("CARGO_MANIFEST_DIR").expect("cargo sets it"))
            .join("../../target/staticlib"),
    };
    println!("cargo:rustc-link-search=native={}", folder.display());
    for library in ["calls", "table_calls", "netcode"] {
        let archive = folder.join(format!("lib{library}.a"));
        println!("cargo:rerun-if-changed={}", archive.display());
        println!("cargo:rustc-link-lib=static={library}");
    }
}
