//! Secrets from seeds that need each repair, reads at the edges of ten bytes and of none, and secrets by index: what
//! the program `edges` of this repository prints. Past the end the crate panics, so there the line is the rule's.

use std::io::{Result, Write};

use crate::util::read::{read_u32, read_u64};
use crate::v3::{RapidSecrets, DEFAULT_RAPID_SECRETS};
use crate::words::numbers;

/// The second, third and fourth make an all-zero window in the low, the middle and the high bits; the fifth
/// stays itself.
const SEEDS: [u64; 6] = [0, 0x152b, 0x2ee5, 0x1012ef, 0x4b33a62ed433d4a3, u64::MAX];

const BYTES: [u8; 10] = [0, 1, 2, 3, 4, 5, 6, 7, 8, 249];

const OFFSETS: [u64; 9] = [0, 2, 3, 6, 7, 10, u64::MAX - 7, u64::MAX - 3, u64::MAX];

pub fn print(mut output: impl Write) -> Result<()> {
    for seed in SEEDS {
        let made = RapidSecrets::seed(seed);
        writeln!(output, "seed {seed:016x} = {}", words(&made))?;
        writeln!(output, "seed_cpp {seed:016x} = {}", words(&RapidSecrets::seed_cpp(seed)))?;
        writeln!(output, "reseed = {}", words(&made.reseed()))?;
    }
    writeln!(output, "default = {}", words(&DEFAULT_RAPID_SECRETS))?;
    for bytes in [&BYTES[..], &[]] {
        for offset in OFFSETS {
            let word8 = within(bytes, offset, 8).then(|| read_u64(bytes, offset as usize));
            let word4 = within(bytes, offset, 4).then(|| read_u32(bytes, offset as usize) as u64);
            writeln!(output, "word8 {offset:016x} = {}", found(word8))?;
            writeln!(output, "word4 {offset:016x} = {}", found(word4))?;
        }
    }
    let nine = RapidSecrets::seed(9);
    for index in [0, 1, 2, 3, 4, 5, 6, 7, u64::MAX] {
        let secret = nine.secrets.get(index as usize).copied();
        writeln!(output, "secret {index:016x} = {}", found(secret))?;
    }
    Ok(())
}

fn words(secrets: &RapidSecrets) -> String {
    let mut all = vec![secrets.seed];
    all.extend(secrets.secrets);
    numbers(&all, " ")
}

/// In 128 bits the sum cannot wrap.
fn within(bytes: &[u8], offset: u64, width: u64) -> bool {
    offset as u128 + width as u128 <= bytes.len() as u128
}

fn found(value: Option<u64>) -> String {
    match value {
        Some(value) => format!("0 {value:016x}"),
        None => format!("3 {:016x}", 0),
    }
}
