//! Names rapidhash's source files to the compiler where they lie, so that they are compiled unchanged and
//! nothing of them is kept here. `#[path]` takes only a literal and the folder is known only now, so the
//! lines are written into OUT_DIR and src/main.rs includes them.

use std::path::{Path, PathBuf};
use std::{env, fs};

/// Counted from the root of the repository, as is a relative RAPIDHASH_SRC.
const DEFAULT_SOURCE: &str = "../shared/docs/src/src";

const FILES: [&str; 8] = [
    "v3/mod.rs",
    "v3/seed.rs",
    "v3/rapid_const.rs",
    "v3/rapid_stream_hasher.rs",
    "v3/rapid_file.rs",
    "util/mix.rs",
    "util/read.rs",
    "util/hints.rs",
];

pub fn main() {
    println!("cargo::rerun-if-env-changed=RAPIDHASH_SRC");
    let source = source_folder();
    for file in FILES {
        let path = source.join(file);
        assert!(path.is_file(), "{} is missing: see README.md for rapidhash's source", path.display());
        println!("cargo::rerun-if-changed={}", path.display());
    }
    let out = PathBuf::from(env::var_os("OUT_DIR").expect("cargo sets OUT_DIR"));
    fs::write(out.join("rapidhash.rs"), root(&source)).expect("OUT_DIR can be written");
}

fn source_folder() -> PathBuf {
    let here = PathBuf::from(env::var_os("CARGO_MANIFEST_DIR").expect("cargo sets CARGO_MANIFEST_DIR"));
    let repository = here.parent().expect("oracle is a folder of the repository");
    let source = env::var_os("RAPIDHASH_SRC").unwrap_or_else(|| DEFAULT_SOURCE.into());
    let folder = repository.join(source);
    folder
        .canonicalize()
        .unwrap_or_else(|e| panic!("{}: {e}; see README.md for rapidhash's source", folder.display()))
}

/// `util` is the stand-in for the crate's util/mod.rs. v3/mod.rs names the other files of v3 by itself.
fn root(source: &Path) -> String {
    let line = |file: &str, name: &str| {
        let path = source.join(file);
        let path = path.to_str().expect("the source folder's path is Unicode");
        format!("#[path = {path:?}] pub(crate) mod {name};\n")
    };
    // What the crate offers and the oracle leaves unused, and its features that do not exist here, are
    // no mistakes of the oracle's.
    let allow = "#[allow(dead_code, unused_imports, unexpected_cfgs)]\n";
    let util = ["mix", "read", "hints"].map(|name| line(&format!("util/{name}.rs"), name)).concat();
    format!("{allow}pub(crate) mod util {{\n{util}}}\n{allow}{}", line("v3/mod.rs", "v3"))
}
