//! Tells the linker where the archive is: the folder in TULGRANIE_LIB, else target/native of this repository, where
//! tools/native puts it.
use std::env;
use std::path::PathBuf;

fn main() {
    println!("cargo:rerun-if-env-changed=TULGRANIE_LIB");
    let here = PathBuf::from(env::var("CARGO_MANIFEST_DIR").expect("cargo sets it"));
    let folder =
        env::var("TULGRANIE_LIB").map(PathBuf::from).unwrap_or_else(|_| here.join("../../target/native"));
    let archive = folder.join("libtulgranie.a");
    println!("cargo:rerun-if-changed={}", archive.display());
    if !archive.exists() {
        panic!(
            "{} is not there: run tools/native first, or name its folder in TULGRANIE_LIB",
            archive.display()
        );
    }
    println!("cargo:rustc-link-search=native={}", folder.display());
    println!("cargo:rustc-link-lib=static=tulgranie");
}
