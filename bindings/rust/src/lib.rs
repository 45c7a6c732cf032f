//! The portable hash rapidhash V3, its stream, and museums' label records with their fingerprint, over a library in which
//! every function is proved to meet its contract.
//!
//! ```
//! use tulgranie::{label, RapidSecrets, StreamHasher};
//!
//! let secrets = RapidSecrets::default();
//! let mut hasher = StreamHasher::new(secrets, true, false);
//! hasher.write(b"Th\xc3").unwrap(); // a cut inside an accented letter changes nothing
//! hasher.write(b"\xa9i\xc3\xa8re").unwrap();
//! assert_eq!(hasher.finish().unwrap().hash, tulgranie::full("Théière".as_bytes(), secrets, true, false, false));
//!
//! let record = b"\x01\x01\x00A\x02\x00\x00";
//! assert!(label::read(record).is_ok());
//! assert_eq!(label::find(record, &[9, 1]).unwrap().value, b"A");
//! ```
//!
//! No call panics, allocates or keeps anything. A mistake in the input comes back as an error with the number that the
//! rules give it.
#![warn(missing_docs)]

mod ffi;
pub mod label;
mod secrets;
mod stream;

pub use secrets::RapidSecrets;
pub use stream::{Finished, NotSound, StreamHasher, WriteError};

/// The full hash of a message. `compact` chooses a smaller loop and changes no answer.
pub fn full(data: &[u8], secrets: RapidSecrets, avalanche: bool, compact: bool, protected: bool) -> u64 {
    // SAFETY: the pointer and the length are a slice's, and the library only reads.
    unsafe { ffi::tulgranie_full(data.as_ptr(), data.len(), secrets, avalanche, compact, protected) }
}

/// The micro hash of a message.
pub fn micro(data: &[u8], secrets: RapidSecrets, avalanche: bool, protected: bool) -> u64 {
    // SAFETY: as in `full`.
    unsafe { ffi::tulgranie_micro(data.as_ptr(), data.len(), secrets, avalanche, protected) }
}

/// The nano hash of a message.
pub fn nano(data: &[u8], secrets: RapidSecrets, avalanche: bool, protected: bool) -> u64 {
    // SAFETY: as in `full`.
    unsafe { ffi::tulgranie_nano(data.as_ptr(), data.len(), secrets, avalanche, protected) }
}

/// The 8 bytes at an offset as a number, least significant first; `None` if they are not all there.
pub fn word8(bytes: &[u8], offset: usize) -> Option<u64> {
    // SAFETY: as in `full`.
    unsafe { ffi::tulgranie_word8(bytes.as_ptr(), bytes.len(), offset) }.found()
}

/// The 4 bytes at an offset as a number, least significant first; `None` if they are not all there.
pub fn word4(bytes: &[u8], offset: usize) -> Option<u64> {
    // SAFETY: as in `full`.
    unsafe { ffi::tulgranie_word4(bytes.as_ptr(), bytes.len(), offset) }.found()
}
