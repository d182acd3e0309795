// Links the static library that rust/library writes. THRIFTBELL is the repository, the folder above this one unless it is set.
use std::path::PathBuf;

fn main() {
    let above = || PathBuf::from(std::env::var("CARGO_MANIFEST_DIR").unwrap()).join("..");
    let root = std::env::var("THRIFTBELL").map_or_else(|_| above(), PathBuf::from);
    let folder = root.join("target/staticlib");
    if !folder.join("libcapi.a").exists() {
        panic!("{} has no libcapi.a: run rust/library in the repository first", folder.display());
    }
    println!("cargo:rustc-link-search=native={}", folder.display());
    println!("cargo:rustc-link-lib=static=capi");
    println!("cargo:rustc-env=THRIFTBELL={}", root.display());
    println!("cargo:rerun-if-changed={}", folder.join("libcapi.a").display());
    println!("cargo:rerun-if-env-changed=THRIFTBELL");
}
