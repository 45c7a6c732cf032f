//! A stream's calls, run by the Rust's stream hasher. What the hasher does not show (the chunk count and the
//! state) is worked out from the bytes accepted since the last reset, by the rules of crates/stream/specs.

use crate::util::mix::rapid_mix;
use crate::util::read::read_u64;
use crate::v3::{RapidSecrets, RapidStreamHasherInlineV3};
use crate::words::{number, numbers, unhex};

const LANES: usize = 7;
const CHUNK: usize = 16 * LANES;
const PREVIOUS: usize = 16;

pub enum Call {
    Write(Vec<u8>),
    Finish,
    Reset,
    /// Save, resume and the two conversions: the Rust has none of them.
    NotInRust,
}

/// An empty part is no call and gets no answer: a stored case has `/F` and answers the finish alone.
pub fn read_calls(word: &str) -> Option<Vec<Call>> {
    let parts = word.split('/').filter(|part| !part.is_empty());
    parts.map(read_call).collect::<Option<Vec<_>>>().filter(|calls| !calls.is_empty())
}

fn read_call(word: &str) -> Option<Call> {
    match word {
        "F" => Some(Call::Finish),
        "R" => Some(Call::Reset),
        _ if word.starts_with(['S', 'L', 'U', 'D']) => Some(Call::NotInRust),
        _ => unhex(word.strip_prefix('W')?).map(Call::Write),
    }
}

/// What `calls` asks for besides the flags, which pick the instance of `run`.
pub struct Opening {
    pub secrets: RapidSecrets,
    pub number: u16,
}

/// `None` where the Rust lacks one of the calls.
pub fn answer(avalanche: bool, protected: bool, opening: &Opening, calls: &[Call]) -> Option<String> {
    match (avalanche, protected) {
        (false, false) => run::<false, false>(opening, calls),
        (false, true) => run::<false, true>(opening, calls),
        (true, false) => run::<true, false>(opening, calls),
        (true, true) => run::<true, true>(opening, calls),
    }
}

fn run<const AVALANCHE: bool, const PROTECTED: bool>(opening: &Opening, calls: &[Call]) -> Option<String> {
    let mut hasher = RapidStreamHasherInlineV3::<AVALANCHE, PROTECTED>::new(&opening.secrets);
    let mut accepted = Vec::new();
    let mut answers = Vec::new();
    for call in calls {
        answers.push(match call {
            Call::Write(bytes) => {
                hasher.write(bytes);
                accepted.extend_from_slice(bytes);
                // No list of calls holds the 2^64 bytes after which a write would be refused.
                format!("W0:{}", number(0))
            }
            Call::Finish => format!("F0:{}:{}", number(hasher.finish()), number(chunks(&accepted) as u64)),
            Call::Reset => {
                hasher.reset();
                accepted.clear();
                "R".to_string()
            }
            Call::NotInRust => return None,
        });
    }
    Some(format!("{} {}", answers.join("/"), state::<AVALANCHE, PROTECTED>(opening, &accepted)))
}

/// A chunk is mixed only when at least one byte follows it.
pub fn chunks(accepted: &[u8]) -> usize {
    accepted.len().saturating_sub(1) / CHUNK
}

fn state<const AVALANCHE: bool, const PROTECTED: bool>(opening: &Opening, accepted: &[u8]) -> String {
    let (mixed, buffered) = accepted.split_at(CHUNK * chunks(accepted));
    [
        LANES.to_string(),
        number(opening.secrets.seed),
        numbers(&opening.secrets.secrets, ","),
        u8::from(AVALANCHE).to_string(),
        u8::from(PROTECTED).to_string(),
        numbers(&lanes::<PROTECTED>(&opening.secrets, mixed), ","),
        number(chunks(accepted) as u64),
        number(buffered.len() as u64),
        buffer(mixed, buffered).iter().map(|byte| format!("{byte:02x}")).collect(),
        opening.number.to_string(),
    ]
    .join(",")
}

/// The hasher keeps its lanes to itself, so they are mixed once more, with the Rust's own mix and reads.
fn lanes<const PROTECTED: bool>(secrets: &RapidSecrets, mixed: &[u8]) -> [u64; LANES] {
    let mut lanes = [secrets.seed; LANES];
    for chunk in mixed.chunks_exact(CHUNK) {
        for (j, lane) in lanes.iter_mut().enumerate() {
            let first = read_u64(chunk, 16 * j) ^ secrets.secrets[j];
            *lane = rapid_mix::<PROTECTED>(first, read_u64(chunk, 16 * j + 8) ^ *lane);
        }
    }
    lanes
}

/// The Rust leaves old bytes standing past the buffered ones; the rules have zeros there.
fn buffer(mixed: &[u8], buffered: &[u8]) -> [u8; PREVIOUS + CHUNK] {
    let mut buffer = [0; PREVIOUS + CHUNK];
    if let Some(previous) = mixed.last_chunk::<PREVIOUS>() {
        buffer[..PREVIOUS].copy_from_slice(previous);
    }
    buffer[PREVIOUS..][..buffered.len()].copy_from_slice(buffered);
    buffer
}
