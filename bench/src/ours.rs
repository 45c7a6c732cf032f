//! The library, called as C calls it (include/tulgranie.h).

use crate::v3::DEFAULT_RAPID_SECRETS;
use crate::PART;

#[repr(C)]
#[derive(Clone, Copy)]
struct Secrets {
    seed: u64,
    secrets: [u64; 7],
}

#[repr(C)]
struct Stream {
    secrets: Secrets,
    avalanche: bool,
    protected: bool,
    lanes: [u64; 7],
    count: u64,
    waiting: usize,
    buffer: [u8; 128],
}

#[repr(C)]
struct Wrote {
    number: u64,
    room: u64,
}

#[repr(C)]
struct End {
    number: u64,
    hash: u64,
    count: u64,
}

extern "C" {
    fn tulgranie_full(
        data: *const u8,
        n: usize,
        secrets: Secrets,
        avalanche: bool,
        compact: bool,
        protected: bool,
    ) -> u64;
    fn tulgranie_stream_open(secrets: Secrets, avalanche: bool, protected: bool) -> Stream;
    fn tulgranie_stream_write(stream: &mut Stream, data: *const u8, n: usize) -> Wrote;
    fn tulgranie_stream_finish(stream: &Stream) -> End;
}

const SECRETS: Secrets = Secrets { seed: DEFAULT_RAPID_SECRETS.seed, secrets: DEFAULT_RAPID_SECRETS.secrets };

#[inline(always)]
pub fn whole(message: &[u8]) -> u64 {
    // SAFETY: a pointer and the length of what it points to, as the header asks; likewise below.
    unsafe { tulgranie_full(message.as_ptr(), message.len(), SECRETS, true, false, false) }
}

#[inline(always)]
pub fn in_writes(message: &[u8]) -> u64 {
    let mut stream = unsafe { tulgranie_stream_open(SECRETS, true, false) };
    for part in message.chunks(PART) {
        unsafe { tulgranie_stream_write(&mut stream, part.as_ptr(), part.len()) };
    }
    unsafe { tulgranie_stream_finish(&stream) }.hash
}
