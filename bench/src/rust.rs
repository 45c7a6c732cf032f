//! The Rust, called as a user of the crate calls it.

use crate::v3::{rapidhash_v3, RapidStreamHasherV3, DEFAULT_RAPID_SECRETS};
use crate::PART;

#[inline(always)]
pub fn whole(message: &[u8]) -> u64 {
    rapidhash_v3(message)
}

#[inline(always)]
pub fn in_writes(message: &[u8]) -> u64 {
    let mut stream = RapidStreamHasherV3::new(&DEFAULT_RAPID_SECRETS);
    for part in message.chunks(PART) {
        stream.write(part);
    }
    stream.finish()
}
