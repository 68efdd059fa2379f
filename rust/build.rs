//! Links the proved library: crates/capi/out/libcapi.a of this repository, or the one in the folder whose whole path
//! HERMITCASKET_LIBRARY has. Packages that depend on this one are told its path as DEP_CAPI_ARCHIVE.

use std::env;
use std::path::{Path, PathBuf};

fn folder() -> PathBuf {
    println!("cargo:rerun-if-env-changed=HERMITCASKET_LIBRARY");
    if let Some(folder) = env::var_os("HERMITCASKET_LIBRARY") {
        return PathBuf::from(folder);
    }
    let package = env::var_os("CARGO_MANIFEST_DIR").expect("cargo sets CARGO_MANIFEST_DIR");
    Path::new(&package).parent().expect("the repository").join("crates/capi/out")
}

fn main() {
    let folder = folder();
    let archive = folder.join("libcapi.a");
    println!("cargo:rerun-if-changed={}", archive.display());
    if !archive.is_file() {
        let wanted = "run `rt lib` in crates/capi first, or set HERMITCASKET_LIBRARY to the whole path of its folder";
        eprintln!("{} is missing: {}", archive.display(), wanted);
        std::process::exit(1);
    }
    println!("cargo:rustc-link-search=native={}", folder.display());
    println!("cargo:rustc-link-lib=static=capi");
    println!("cargo:archive={}", archive.display());
}
