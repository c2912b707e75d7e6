//! Tells cargo where the engine's archive lies and links it.

use std::env;
use std::path::PathBuf;

/// The folder named by YENUSLAP_LIB, else the one in which the engine's build leaves its archive.
fn archive_folder() -> PathBuf {
    match env::var_os("YENUSLAP_LIB") {
        Some(folder) => PathBuf::from(folder),
        None => {
            let manifest =
                env::var_os("CARGO_MANIFEST_DIR").expect("cargo names the crate's folder");
            PathBuf::from(manifest).join("../../target/staticlib")
        }
    }
}

fn main() {
    let folder = archive_folder();
    let archive = folder.join("libengine.a");
    if !archive.exists() {
        println!(
            "cargo:warning=no engine at {}: build it first, or set YENUSLAP_LIB",
            archive.display()
        );
    }
    println!("cargo:rustc-link-search=native={}", folder.display());
    println!("cargo:rustc-link-lib=static=engine");
    println!("cargo:rerun-if-env-changed=YENUSLAP_LIB");
    println!("cargo:rerun-if-changed=build.rs");
    println!("cargo:rerun-if-changed={}", archive.display());
}
