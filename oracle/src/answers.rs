//! Requests about messages that a rule makes, with the Rust's answers: what `crates/answers` replays with no Rust at hand.

use std::io::{Result, Write};

use crate::first_run::message;
use crate::hashes::{full, micro, nano};
use crate::stream::chunks;
use crate::v3::{RapidSecrets, RapidStreamHasherInlineV3};
use crate::words::numbers;

/// Nine chunks of the longest kind lie below this.
const LONGEST: usize = 1000;

/// Seeds whose premix needs a repair of each window, and others.
const SEEDS: [u64; 8] = [0, 1, 0x152b, 0x2ee5, 0x1012ef, 0x4b33a62ed433d4a3, 0x0123456789abcdef, u64::MAX];

pub fn print(mut output: impl Write) -> Result<()> {
    writeln!(output, "# request = the Rust's answer, printed by `oracle answers`")?;
    for length in 0..=LONGEST {
        let message = message(length);
        let seed = SEEDS[length % 8].wrapping_add((length / 8) as u64);
        let secrets = RapidSecrets::seed(seed);
        let bit = |weight: usize| (length / 3) & weight != 0;
        let (avalanche, compact, protected) = (bit(4), bit(2), bit(1));
        let digits = format!("{}{}{}", avalanche as u8, compact as u8, protected as u8);
        let asked = format!("{digits} {seed:016x} {length}");
        writeln!(output, "full {asked} = {:016x}", full(avalanche, compact, protected, &message, &secrets))?;
        writeln!(output, "micro {asked} = {:016x}", micro(avalanche, protected, &message, &secrets))?;
        writeln!(output, "nano {asked} = {:016x}", nano(avalanche, protected, &message, &secrets))?;
        let (first, second) = (length * 3 / 8, length * 5 / 7);
        let parts = [&message[..first], &message[first..second], &message[second..]];
        let hash = match (avalanche, protected) {
            (false, false) => in_parts::<false, false>(&secrets, parts),
            (false, true) => in_parts::<false, true>(&secrets, parts),
            (true, false) => in_parts::<true, false>(&secrets, parts),
            (true, true) => in_parts::<true, true>(&secrets, parts),
        };
        writeln!(output, "stream {asked} {first} {second} = {hash:016x} {}", chunks(&message))?;
    }
    for turn in 0..64 {
        let seed = SEEDS[turn % 8].wrapping_mul((turn / 8 + 1) as u64);
        let made = RapidSecrets::seed(seed);
        let all = [made, RapidSecrets::seed_cpp(seed), made.reseed()].map(|s| {
            let words: Vec<u64> = std::iter::once(s.seed).chain(s.secrets).collect();
            numbers(&words, " ")
        });
        writeln!(output, "secrets {seed:016x} = {seed:016x} {}", all.join(" "))?;
    }
    Ok(())
}

fn in_parts<const AVALANCHE: bool, const PROTECTED: bool>(secrets: &RapidSecrets, parts: [&[u8]; 3]) -> u64 {
    let mut hasher = RapidStreamHasherInlineV3::<AVALANCHE, PROTECTED>::new(secrets);
    for part in parts {
        hasher.write(part);
    }
    hasher.finish()
}
