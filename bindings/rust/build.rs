//! Links `libnetcode.a`, from where `tools/archives` writes it or from OURS_LIB, and libsodium.

use std::env;
use std::path::PathBuf;

fn main() {
    println!("cargo:rerun-if-env-changed=OURS_LIB");
    let folder = match env::var_os("OURS_LIB") {
        Some(folder) => PathBuf::from(folder),
        None => PathBuf::from(env::var_os("CARGO_MANIFEST_DIR").expect("cargo sets it"))
            .join("../../target/staticlib"),
    };
    println!(
        "cargo:rerun-if-changed={}",
        folder.join("libnetcode.a").display()
    );
    println!("cargo:rustc-link-search=native={}", folder.display());
    println!("cargo:rustc-link-lib=static=netcode");
    println!("cargo:rustc-link-lib=sodium");
}
