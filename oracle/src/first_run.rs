//! The grid of hashes that a program of this repository replays. It builds the messages and the secrets by
//! the same rules, so the grid holds hashes alone.

use std::io::{Result, Write};

use crate::hashes::{full, micro, nano};
use crate::v3::{RapidSecrets, DEFAULT_RAPID_SECRETS};
use crate::words::numbers;

/// Two full chunks of the longest kind, and the lengths around their ends, lie below this.
const LONGEST: usize = 300;

pub fn print(mut output: impl Write) -> Result<()> {
    let all_secrets = secrets();
    for length in 0..=LONGEST {
        let message = message(length);
        for secrets in &all_secrets {
            writeln!(output, "{}", numbers(&hashes(&message, secrets), " "))?;
        }
    }
    Ok(())
}

/// The formula is the replaying programs' too: a change here makes every line that they replay another.
pub fn message(length: usize) -> Vec<u8> {
    (0..length).map(|i| ((i * 197 + (i / 3) * 59 + (i / 7) * 113 + length * 101 + 7) % 256) as u8).collect()
}

fn secrets() -> [RapidSecrets; 4] {
    [
        DEFAULT_RAPID_SECRETS,
        RapidSecrets::seed(0x0123456789abcdef),
        RapidSecrets::seed_cpp(0xffffffffffffffff),
        RapidSecrets { seed: 0, secrets: [0; 7] }.reseed(),
    ]
}

/// Full, micro, nano; in each the flags count up in binary, avalanche the slowest and protected the fastest.
fn hashes(message: &[u8], secrets: &RapidSecrets) -> [u64; 16] {
    std::array::from_fn(|place| {
        let bit = |weight: usize| place & weight != 0;
        match place {
            0..8 => full(bit(4), bit(2), bit(1), message, secrets),
            8..12 => micro(bit(2), bit(1), message, secrets),
            _ => nano(bit(2), bit(1), message, secrets),
        }
    })
}
