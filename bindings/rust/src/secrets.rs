use crate::ffi;

/// The seed and the seven secrets of a hash. Any numbers will do; two hashes can be compared if these are the same.
#[repr(C)]
#[derive(Clone, Copy, Debug, PartialEq, Eq, Hash)]
pub struct RapidSecrets {
    /// The seed.
    pub seed: u64,
    /// The secrets.
    pub secrets: [u64; 7],
}

impl RapidSecrets {
    /// Seed and secrets made from one number, the same on every machine.
    pub fn seed(seed: u64) -> Self {
        // SAFETY: numbers alone cross over.
        unsafe { ffi::tulgranie_seed(seed) }
    }

    /// The seed that the C++ original makes of a number, with the default secrets.
    pub fn seed_cpp(seed: u64) -> Self {
        // SAFETY: numbers alone cross over.
        unsafe { ffi::tulgranie_seed_cpp(seed) }
    }

    /// Another seed with the same secrets.
    pub fn reseed(self) -> Self {
        // SAFETY: numbers alone cross over.
        unsafe { ffi::tulgranie_reseed(self) }
    }

    /// The secret at an index; `None` over 6.
    pub fn secret(self, index: usize) -> Option<u64> {
        // SAFETY: numbers alone cross over.
        unsafe { ffi::tulgranie_secret(self, index) }.found()
    }
}

/// The default seed and secrets: those of `seed_cpp(0)`.
impl Default for RapidSecrets {
    fn default() -> Self {
        // SAFETY: numbers alone cross over.
        unsafe { ffi::tulgranie_default_secrets() }
    }
}
