//! Links libvicemint.a of the folder `VICEMINT_LIB`, or of build/c at the top of the repository, where c/build.sh puts it.
use std::path::PathBuf;

fn main() {
    let own = PathBuf::from(std::env::var("CARGO_MANIFEST_DIR").expect("cargo gives the folder"));
    let named = std::env::var("VICEMINT_LIB").map(PathBuf::from);
    let folder = named.unwrap_or_else(|_| own.join("../../build/c"));
    println!("cargo:rerun-if-env-changed=VICEMINT_LIB");
    println!("cargo:rerun-if-changed={}", folder.join("libvicemint.a").display());
    println!("cargo:rustc-link-search=native={}", folder.display());
    println!("cargo:rustc-link-lib=static=vicemint");
}
