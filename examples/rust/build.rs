//! Links libniegluk.a: the one in the folder that `NIEGLUK_LIB_DIR` names (a whole path), else the
//! one that `make library` leaves in this repository.

use std::env;
use std::path::PathBuf;

fn main() {
    println!("cargo::rerun-if-env-changed=NIEGLUK_LIB_DIR");
    let here = env::var("CARGO_MANIFEST_DIR").expect("cargo names the folder of the crate");
    let folder = match env::var_os("NIEGLUK_LIB_DIR") {
        Some(folder) => PathBuf::from(folder),
        None => PathBuf::from(here).join("../../target/staticlib"),
    };
    if env::var("CARGO_CFG_TARGET_ARCH").as_deref() != Ok("x86_64") {
        println!("cargo::error=libniegluk.a is for x86-64 only");
    }
    let library = folder.join("libniegluk.a");
    println!("cargo::rerun-if-changed={}", library.display());
    if !library.is_file() {
        println!(
            "cargo::error=no file {} (make it: make library)",
            library.display()
        );
    }
    println!("cargo::rustc-link-search=native={}", folder.display());
    println!("cargo::rustc-link-lib=static=niegluk");
}
