//! Says where the archive of `tools/build archive` is: in the folder that GINGERPOST_LIB names, else in target/staticlib of this repository.
use std::env;
use std::path::PathBuf;

fn main() {
    let folder = env::var_os("GINGERPOST_LIB").map(PathBuf::from).unwrap_or_else(|| {
        let here = PathBuf::from(env::var_os("CARGO_MANIFEST_DIR").expect("cargo sets it"));
        here.join("../../target/staticlib")
    });
    println!("cargo:rustc-link-search=native={}", folder.display());
    println!("cargo:rerun-if-env-changed=GINGERPOST_LIB");
    println!("cargo:rerun-if-changed={}", folder.join("libhost.a").display());
}
