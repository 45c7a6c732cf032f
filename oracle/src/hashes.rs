//! The three one-shot hashes with their flags as arguments. In the Rust the flags are const parameters, so
//! every combination is an instance of its own. Arguments go in the Rust's order.

use crate::v3::{rapidhash_v3_inline, rapidhash_v3_micro_inline, rapidhash_v3_nano_inline, RapidSecrets};

pub fn full(avalanche: bool, compact: bool, protected: bool, data: &[u8], secrets: &RapidSecrets) -> u64 {
    match (avalanche, compact, protected) {
        (false, false, false) => rapidhash_v3_inline::<false, false, false>(data, secrets),
        (false, false, true) => rapidhash_v3_inline::<false, false, true>(data, secrets),
        (false, true, false) => rapidhash_v3_inline::<false, true, false>(data, secrets),
        (false, true, true) => rapidhash_v3_inline::<false, true, true>(data, secrets),
        (true, false, false) => rapidhash_v3_inline::<true, false, false>(data, secrets),
        (true, false, true) => rapidhash_v3_inline::<true, false, true>(data, secrets),
        (true, true, false) => rapidhash_v3_inline::<true, true, false>(data, secrets),
        (true, true, true) => rapidhash_v3_inline::<true, true, true>(data, secrets),
    }
}

pub fn micro(avalanche: bool, protected: bool, data: &[u8], secrets: &RapidSecrets) -> u64 {
    match (avalanche, protected) {
        (false, false) => rapidhash_v3_micro_inline::<false, false>(data, secrets),
        (false, true) => rapidhash_v3_micro_inline::<false, true>(data, secrets),
        (true, false) => rapidhash_v3_micro_inline::<true, false>(data, secrets),
        (true, true) => rapidhash_v3_micro_inline::<true, true>(data, secrets),
    }
}

pub fn nano(avalanche: bool, protected: bool, data: &[u8], secrets: &RapidSecrets) -> u64 {
    match (avalanche, protected) {
        (false, false) => rapidhash_v3_nano_inline::<false, false>(data, secrets),
        (false, true) => rapidhash_v3_nano_inline::<false, true>(data, secrets),
        (true, false) => rapidhash_v3_nano_inline::<true, false>(data, secrets),
        (true, true) => rapidhash_v3_nano_inline::<true, true>(data, secrets),
    }
}
