//! Tells the linker where the proved library stands: target/staticlib of the repository, or the folder that GINGERPOST_STATICLIB names.

use std::path::PathBuf;

fn main() {
    println!("cargo:rerun-if-env-changed=GINGERPOST_STATICLIB");
    let folder = match std::env::var_os("GINGERPOST_STATICLIB") {
        Some(folder) => PathBuf::from(folder),
        None => PathBuf::from(std::env::var_os("CARGO_MANIFEST_DIR").expect("set by cargo")).join("../../target/staticlib"),
    };
    println!("cargo:rustc-link-search=native={}", folder.display());
    println!("cargo:rerun-if-changed={}", folder.join("libhost.a").display());
}
