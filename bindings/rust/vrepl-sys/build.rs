//! Links libvrepl.a: that of the folder VREPL_LIBRARY_DIR, else of the checkout's out/library.
use std::path::PathBuf;

fn main() {
    let checkout = PathBuf::from(std::env::var("CARGO_MANIFEST_DIR").unwrap()).join("../../../out/library");
    let folder = std::env::var("VREPL_LIBRARY_DIR").map(PathBuf::from).unwrap_or(checkout);
    println!("cargo:rerun-if-env-changed=VREPL_LIBRARY_DIR");
    println!("cargo:rerun-if-changed={}", folder.join("libvrepl.a").display());
    println!("cargo:rustc-link-search=native={}", folder.display());
    println!("cargo:rustc-link-lib=static=vrepl");
}
