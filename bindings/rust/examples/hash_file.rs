//! The hash of a file, read in parts: `cargo run --example hash_file FILE`
//! Exit status: 0 done, 2 the file could not be read, or has more than 2^64 - 1 bytes.
use std::{env, fs::File, io, process};
use tulgranie::{RapidSecrets, StreamHasher};

fn main() {
    let Some(path) = env::args_os().nth(1) else {
        eprintln!("usage: hash_file FILE");
        process::exit(2);
    };
    let mut hasher = StreamHasher::new(RapidSecrets::default(), true, false);
    let copied = File::open(&path).and_then(|mut file| io::copy(&mut file, &mut hasher));
    match (copied, hasher.finish()) {
        (Ok(_), Ok(end)) => println!("{:016x}", end.hash),
        (Err(error), _) => fail(&path.to_string_lossy(), &error),
        (_, Err(error)) => fail(&path.to_string_lossy(), &error),
    }
}

fn fail(path: &str, error: &dyn std::error::Error) {
    eprintln!("{path}: {error}");
    process::exit(2);
}
