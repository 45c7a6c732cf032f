//! The calls of the library, as include/tulgranie.h has them.
use crate::RapidSecrets;

#[repr(C)]
#[derive(Clone, Copy)]
pub struct Value {
    pub number: u64,
    pub value: u64,
}

impl Value {
    pub fn found(self) -> Option<u64> {
        (self.number == 0).then_some(self.value)
    }
}

#[repr(C)]
#[derive(Clone, Copy)]
pub struct Settings {
    pub secrets: RapidSecrets,
    pub avalanche: bool,
    pub protected: bool,
}

#[repr(C)]
#[derive(Clone, Copy)]
pub struct Stream {
    pub settings: Settings,
    pub lanes: [u64; 7],
    pub count: u64,
    pub waiting: usize,
    pub buffer: [u8; 128],
}

#[repr(C)]
#[derive(Clone, Copy)]
pub struct StreamWrote {
    pub number: u64,
    pub room: u64,
}

#[repr(C)]
#[derive(Clone, Copy)]
pub struct StreamEnd {
    pub number: u64,
    pub hash: u64,
    pub count: u64,
}

#[repr(C)]
#[derive(Clone, Copy)]
pub struct Answer {
    pub number: u64,
    pub place: u64,
    pub tag: u64,
    pub start: u64,
    pub length: u64,
    pub fingerprint: u64,
}

extern "C" {
    pub fn tulgranie_word8(bytes: *const u8, length: usize, offset: usize) -> Value;
    pub fn tulgranie_word4(bytes: *const u8, length: usize, offset: usize) -> Value;
    pub fn tulgranie_seed(seed: u64) -> RapidSecrets;
    pub fn tulgranie_seed_cpp(seed: u64) -> RapidSecrets;
    pub fn tulgranie_reseed(secrets: RapidSecrets) -> RapidSecrets;
    pub fn tulgranie_default_secrets() -> RapidSecrets;
    pub fn tulgranie_secret(secrets: RapidSecrets, index: usize) -> Value;
    pub fn tulgranie_full(
        data: *const u8,
        length: usize,
        secrets: RapidSecrets,
        avalanche: bool,
        compact: bool,
        protected: bool,
    ) -> u64;
    pub fn tulgranie_micro(
        data: *const u8,
        length: usize,
        secrets: RapidSecrets,
        avalanche: bool,
        protected: bool,
    ) -> u64;
    pub fn tulgranie_nano(
        data: *const u8,
        length: usize,
        secrets: RapidSecrets,
        avalanche: bool,
        protected: bool,
    ) -> u64;
    pub fn tulgranie_stream_open(secrets: RapidSecrets, avalanche: bool, protected: bool) -> Stream;
    pub fn tulgranie_stream_write(stream: &mut Stream, data: *const u8, length: usize) -> StreamWrote;
    pub fn tulgranie_stream_finish(stream: &Stream) -> StreamEnd;
    pub fn tulgranie_stream_reset(stream: &mut Stream);
    pub fn tulgranie_read(record: *const u8, length: usize) -> Answer;
    pub fn tulgranie_find(record: *const u8, length: usize, tags: *const u8, count: usize) -> Answer;
    pub fn tulgranie_fingerprint(record: *const u8, length: usize, secrets: RapidSecrets) -> Answer;
}
