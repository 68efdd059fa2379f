//! Where the proved library is, for the tests that look into it or link it to C.

fn main() {
    let archive = std::env::var("DEP_CAPI_ARCHIVE").expect("the crate hermitcasket tells it");
    println!("cargo:rerun-if-changed={}", archive);
    println!("cargo:rustc-env=HC_ARCHIVE={}", archive);
}
