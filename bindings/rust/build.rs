//! Links libcapi.a from the folder that NOTEKARIP_LIB names, else from where the repository builds it.

use std::env;
use std::path::{Path, PathBuf};

fn main() {
    let folder = folder();
    let archive = folder.join("libcapi.a");
    println!("cargo:rerun-if-env-changed=NOTEKARIP_LIB");
    println!("cargo:rerun-if-changed={}", archive.display());
    assert!(
        archive.exists(),
        "{} is missing: `rt lib` in crates/capi writes it",
        archive.display()
    );
    println!("cargo:rustc-link-search=native={}", folder.display());
    println!("cargo:rustc-link-lib=static=capi");
}

fn folder() -> PathBuf {
    if let Some(named) = env::var_os("NOTEKARIP_LIB") {
        return named.into();
    }
    let crate_folder = env::var_os("CARGO_MANIFEST_DIR").expect("cargo names the crate's folder");
    Path::new(&crate_folder).join("../../crates/capi/out")
}
