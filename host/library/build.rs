//! Links the proved library: from the directory that LUMBRAQUAY_STATICLIB_DIR names, else from target/staticlib, where
//! `.ci/staticlib capi` puts it.
use std::path::PathBuf;

fn main() {
    println!("cargo:rerun-if-env-changed=LUMBRAQUAY_STATICLIB_DIR");
    let named = std::env::var_os("LUMBRAQUAY_STATICLIB_DIR").map(PathBuf::from);
    let dir = named.unwrap_or_else(|| {
        let here = PathBuf::from(std::env::var_os("CARGO_MANIFEST_DIR").unwrap());
        here.join("../../target/staticlib")
    });
    println!("cargo:rustc-link-search=native={}", dir.display());
    println!("cargo:rustc-link-lib=static=capi");
    println!("cargo:rerun-if-changed={}", dir.join("libcapi.a").display());
}
