//! The file form, by the Rust's own function: bytes from a descriptor in, 16 digits or `read failed` out.

use std::fs::File;
use std::io::{Read, Result, Write};
use std::mem::ManuallyDrop;
use std::os::fd::FromRawFd;

use crate::v3::rapidhash_v3_file;
use crate::words::number;

const READ_FAILED: &str = "read failed";

/// Reads by a plain file and not by `Stdin`, which takes a descriptor that cannot be read for an empty one.
pub fn print(descriptor: i32, mut output: impl Write) -> Result<()> {
    // SAFETY: nothing else here reads the descriptor, and it is not closed. If it is not open, reading says so.
    let file = ManuallyDrop::new(unsafe { File::from_raw_fd(descriptor) });
    writeln!(output, "{}", answer(&*file))
}

pub fn answer(data: impl Read) -> String {
    rapidhash_v3_file(data).map_or_else(|_| READ_FAILED.to_string(), number)
}
