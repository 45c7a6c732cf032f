//! A stand-in for rapidhash's `inner`, of which v3 names two functions, both in `RapidSecrets::random`.
//! An oracle's answers have to be the same every time, so `random` is never called, and a call would stop
//! the program instead of giving made-up secrets.

pub(crate) mod seeding {
    pub(crate) mod seed {
        pub(crate) fn get_seed() -> u64 {
            unimplemented!("the oracle draws no random seed")
        }
    }

    pub(crate) mod secrets {
        pub(crate) fn get_secrets() -> &'static [u64; 7] {
            unimplemented!("the oracle draws no random secrets")
        }
    }
}
