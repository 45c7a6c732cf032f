//! The fingerprint of a label record in a file: `cargo run --example fingerprint RECORD`
//! Exit status: 0 done, 1 the record is refused, 2 it could not be read.
use std::fs::File;
use std::io::{self, Read};
use std::{env, path::Path, process};
use tulgranie::{label, RapidSecrets};

fn main() {
    let Some(path) = env::args_os().nth(1) else {
        eprintln!("usage: fingerprint RECORD");
        process::exit(2);
    };
    let record = bytes_of(Path::new(&path)).unwrap_or_else(|error| {
        eprintln!("{}: {error}", path.to_string_lossy());
        process::exit(2);
    });
    match label::fingerprint(&record, RapidSecrets::default()) {
        Ok(fingerprint) => println!("{fingerprint:016x}"),
        Err(refusal) => {
            eprintln!("refused: {refusal}");
            process::exit(1);
        }
    }
}

/// The file's bytes; of a longer file one more than a record may have, so that it is refused.
fn bytes_of(path: &Path) -> io::Result<Vec<u8>> {
    let mut bytes = Vec::new();
    File::open(path)?.take(8193).read_to_end(&mut bytes)?;
    Ok(bytes)
}
