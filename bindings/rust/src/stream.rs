use crate::{ffi, RapidSecrets};
use std::error::Error;
use std::fmt;
use std::io;

/// A hash of bytes that come in parts: the full hash of all of them, however they are cut.
#[derive(Clone)]
pub struct StreamHasher {
    state: ffi::Stream,
}

/// What a stream ends in.
#[derive(Clone, Copy, Debug, PartialEq, Eq)]
pub struct Finished {
    /// The full hash of the bytes so far.
    pub hash: u64,
    /// How many chunks of 112 bytes were mixed.
    pub chunks: u64,
}

/// The state is not sound (number 1). No sequence of calls leads to one.
#[derive(Clone, Copy, Debug, PartialEq, Eq)]
pub struct NotSound;

/// Why a write took nothing.
#[derive(Clone, Copy, Debug, PartialEq, Eq)]
#[non_exhaustive]
pub enum WriteError {
    /// The state is not sound (number 1).
    NotSound,
    /// The stream would pass 2^64 - 1 bytes (number 2).
    TooLong {
        /// How many bytes there is room for.
        room: u64,
    },
    /// A number that this crate does not know, of a library that is newer than it.
    Other(u64),
}

impl StreamHasher {
    /// A stream of no bytes.
    pub fn new(secrets: RapidSecrets, avalanche: bool, protected: bool) -> Self {
        // SAFETY: numbers and bools alone cross over.
        StreamHasher { state: unsafe { ffi::tulgranie_stream_open(secrets, avalanche, protected) } }
    }

    /// Takes all of the bytes, or none.
    pub fn write(&mut self, data: &[u8]) -> Result<(), WriteError> {
        // SAFETY: the pointer and the length are a slice's and only read; the state is lent for the call.
        let answer = unsafe { ffi::tulgranie_stream_write(&mut self.state, data.as_ptr(), data.len()) };
        match answer.number {
            0 => Ok(()),
            1 => Err(WriteError::NotSound),
            2 => Err(WriteError::TooLong { room: answer.room }),
            other => Err(WriteError::Other(other)),
        }
    }

    /// The hash of the bytes so far. More can be written after it.
    pub fn finish(&self) -> Result<Finished, NotSound> {
        // SAFETY: the state is lent for the call and only read.
        let end = unsafe { ffi::tulgranie_stream_finish(&self.state) };
        if end.number == 0 {
            Ok(Finished { hash: end.hash, chunks: end.count })
        } else {
            Err(NotSound)
        }
    }

    /// The stream of no bytes again, with the same seed, secrets and flags.
    pub fn reset(&mut self) {
        // SAFETY: the state is lent for the call.
        unsafe { ffi::tulgranie_stream_reset(&mut self.state) }
    }
}

impl io::Write for StreamHasher {
    fn write(&mut self, data: &[u8]) -> io::Result<usize> {
        StreamHasher::write(self, data).map(|()| data.len()).map_err(io::Error::other)
    }

    fn flush(&mut self) -> io::Result<()> {
        Ok(())
    }
}

impl fmt::Debug for StreamHasher {
    fn fmt(&self, f: &mut fmt::Formatter<'_>) -> fmt::Result {
        f.debug_struct("StreamHasher")
            .field("chunks", &self.state.count)
            .field("waiting", &self.state.waiting)
            .finish_non_exhaustive()
    }
}

impl fmt::Display for NotSound {
    fn fmt(&self, f: &mut fmt::Formatter<'_>) -> fmt::Result {
        f.write_str("1: the stream's state is not sound")
    }
}

impl fmt::Display for WriteError {
    fn fmt(&self, f: &mut fmt::Formatter<'_>) -> fmt::Result {
        match self {
            WriteError::NotSound => NotSound.fmt(f),
            WriteError::TooLong { room } => write!(f, "2: the stream has room for {room} bytes only"),
            WriteError::Other(number) => write!(f, "{number}: refused for a reason that this version does not know"),
        }
    }
}

impl Error for NotSound {}
impl Error for WriteError {}
