//! rapidhash's own Rust as the oracle: it answers requests, hashes a file, checks stored answers, and prints
//! the grid, the cuts and the edges that programs of this repository replay. README.md says how to run it.

mod answers;
mod check;
mod cuts;
mod edges;
mod file;
mod first_run;
mod hashes;
mod inner;
mod request;
mod stream;
mod words;

// `util` and `v3` of rapidhash. They stand at this crate's root because their files say `crate::util` and
// `crate::v3`.
include!(concat!(env!("OUT_DIR"), "/rapidhash.rs"));

use std::io::{stdin, stdout, ErrorKind, Result};
use std::process::ExitCode;

const USAGE: &str = "usage: oracle < REQUESTS | oracle file [DESCRIPTOR] < FILE | oracle check FILE.. \
    | oracle first-run | oracle cuts | oracle edges | oracle answers";

fn main() -> ExitCode {
    let arguments: Vec<String> = std::env::args().skip(1).collect();
    match run(&arguments) {
        Ok(code) => code,
        // A reader that has seen enough, such as `head`, is no failure.
        Err(error) if error.kind() == ErrorKind::BrokenPipe => ExitCode::SUCCESS,
        Err(error) => {
            eprintln!("oracle: {error}");
            ExitCode::from(2)
        }
    }
}

fn run(arguments: &[String]) -> Result<ExitCode> {
    let Some((mode, rest)) = arguments.split_first() else {
        request::serve(stdin().lock(), stdout().lock())?;
        return Ok(ExitCode::SUCCESS);
    };
    match (mode.as_str(), rest) {
        ("file", []) => file::print(0, stdout().lock()).map(|()| ExitCode::SUCCESS),
        ("file", [number]) => match number.parse::<u8>() {
            Ok(descriptor) => file::print(descriptor.into(), stdout().lock()).map(|()| ExitCode::SUCCESS),
            Err(_) => usage(),
        },
        ("check", [_, ..]) => check::files(rest, stdout().lock()),
        ("first-run", []) => first_run::print(stdout().lock()).map(|()| ExitCode::SUCCESS),
        ("answers", []) => answers::print(stdout().lock()).map(|()| ExitCode::SUCCESS),
        ("edges", []) => edges::print(stdout().lock()).map(|()| ExitCode::SUCCESS),
        ("cuts", []) => cuts::print(stdout().lock()).map(|()| ExitCode::SUCCESS),
        _ => usage(),
    }
}

fn usage() -> Result<ExitCode> {
    eprintln!("{USAGE}");
    Ok(ExitCode::from(2))
}
