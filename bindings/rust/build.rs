//! Links libdesk.a, which `bindings/library` builds. GAD_LIBRARY_DIR says where it is.

use std::env;
use std::path::PathBuf;

fn main() {
    let usual = || PathBuf::from(env::var("CARGO_MANIFEST_DIR").expect("cargo sets it")).join("../../target/staticlib");
    let folder = env::var("GAD_LIBRARY_DIR").map_or_else(|_| usual(), PathBuf::from);
    println!("cargo:rerun-if-env-changed=GAD_LIBRARY_DIR");
    println!("cargo:rerun-if-changed={}", folder.join("libdesk.a").display());
    println!("cargo:rustc-link-search=native={}", folder.display());
    println!("cargo:rustc-link-lib=static=desk");
}
