//! Links our library, `libnetcode.a`, from where `tools/archives` writes it or from OURS_LIB. Where that folder has a `libnetcode.so` of it
//! too, that is linked, so that another one can take its place without a new build.

use std::env;
use std::path::PathBuf;

fn main() {
    println!("cargo:rerun-if-env-changed=OURS_LIB");
    let folder = match env::var_os("OURS_LIB") {
        Some(folder) => PathBuf::from(folder),
        None => PathBuf::from(env::var_os("CARGO_MANIFEST_DIR").expect("cargo sets it"))
            .join("../../target/staticlib"),
    };
    let (archive, shared) = (folder.join("libnetcode.a"), folder.join("libnetcode.so"));
    println!("cargo:rustc-link-search=native={}", folder.display());
    if shared.exists() {
        println!("cargo:rustc-link-lib=dylib=netcode");
    } else {
        println!("cargo:rerun-if-changed={}", archive.display());
        println!("cargo:rustc-link-lib=static=netcode");
    }
}
