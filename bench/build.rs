//! Names rapidhash's source files as the oracle does, and the library that tools/native builds.

#[path = "../oracle/build.rs"]
mod rapidhash;

fn main() {
    rapidhash::main();
    let here = std::path::PathBuf::from(std::env::var_os("CARGO_MANIFEST_DIR").expect("cargo sets it"));
    let folder = here.join("../target/native");
    println!("cargo::rerun-if-changed={}", folder.join("libtulgranie.a").display());
    println!("cargo::rustc-link-search=native={}", folder.display());
    println!("cargo::rustc-link-lib=static=tulgranie");
}
