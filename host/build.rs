//! Links the proved library. Its folder is `KBUCKETS_LIB`, by default ../target/staticlib, where `tools/library` writes it.

use std::env;
use std::path::PathBuf;

const LIBRARY: &str = "libkbuckets.a";

fn main() {
    println!("cargo::rerun-if-env-changed=KBUCKETS_LIB");
    println!("cargo::rerun-if-changed=build.rs");
    let folder = match env::var_os("KBUCKETS_LIB") {
        Some(folder) => PathBuf::from(folder),
        None => PathBuf::from(env::var_os("CARGO_MANIFEST_DIR").unwrap()).join("../target/staticlib"),
    };
    let library = folder.join(LIBRARY);
    println!("cargo::rerun-if-changed={}", library.display());
    if !library.is_file() {
        println!(
            "cargo::error=no {LIBRARY} in {}: run 'tools/library' in the repository first, or set KBUCKETS_LIB to its folder",
            folder.display()
        );
        return;
    }
    println!("cargo::rustc-link-search=native={}", folder.display());
    println!("cargo::rustc-link-lib=static=kbuckets");
}
