//! Our library beside the Rust, in one process: prints a row for each size and way, with the median time of a message in
//! nanoseconds by the Rust and by ours, and their ratio. README.md of the oracle says where the Rust's files come from.

mod chart;
#[path = "../../oracle/src/inner.rs"]
mod inner;
mod ours;
mod rust;

// `util` and `v3` of rapidhash.
include!(concat!(env!("OUT_DIR"), "/rapidhash.rs"));

use std::hint::black_box;
use std::process::ExitCode;
use std::time::Instant;

const SIZES: [usize; 4] = [16, 100, 1_000, 60_000];
const MESSAGES: usize = 10_000;
const PART: usize = 8_192;
/// The distinct messages of a size fill about this many bytes, so that the caches and not the memory are measured.
const HELD: usize = 120_000;

pub struct Row {
    size: usize,
    way: &'static str,
    rust: f64,
    ours: f64,
}

impl Row {
    fn ratio(&self) -> f64 {
        self.ours / self.rust
    }
}

fn main() -> ExitCode {
    let Some(picture) = std::env::args_os().nth(1) else {
        eprintln!("usage: bench PICTURE");
        return ExitCode::from(2);
    };
    let mut rows = Vec::new();
    for size in SIZES {
        let messages = messages(size);
        if !agree(&messages) {
            eprintln!("bench: a hash of {size} bytes differs");
            return ExitCode::FAILURE;
        }
        for row in [
            measured(size, "whole", &messages, rust::whole, ours::whole),
            measured(size, "writes", &messages, rust::in_writes, ours::in_writes),
        ] {
            println!("{} {} {:.1} {:.1} {:.2}", row.size, row.way, row.rust, row.ours, row.ratio());
            rows.push(row);
        }
    }
    if let Err(error) = std::fs::write(&picture, chart::of(&rows)) {
        eprintln!("bench: {}: {error}", picture.to_string_lossy());
        return ExitCode::from(2);
    }
    ExitCode::SUCCESS
}

/// The distinct messages of a size, which are gone through again and again.
fn messages(size: usize) -> Vec<Vec<u8>> {
    let distinct = (HELD / size).clamp(1, MESSAGES);
    let mut state = size as u64;
    let mut byte = || {
        state = state.wrapping_mul(6364136223846793005).wrapping_add(1442695040888963407);
        (state >> 56) as u8
    };
    (0..distinct).map(|_| (0..size).map(|_| byte()).collect()).collect()
}

fn agree(messages: &[Vec<u8>]) -> bool {
    messages.iter().all(|message| {
        let hash = rust::whole(message);
        hash == ours::whole(message) && hash == rust::in_writes(message) && hash == ours::in_writes(message)
    })
}

/// Both sides take turns at 10,000 messages each, and who begins changes. A turn that was disturbed counts as one
/// among many: the median is taken.
fn measured(
    size: usize,
    way: &'static str,
    messages: &[Vec<u8>],
    rust: impl Fn(&[u8]) -> u64,
    ours: impl Fn(&[u8]) -> u64,
) -> Row {
    let turns = if size < 10_000 { 301 } else { 31 };
    let (mut theirs, mut own) = (Vec::new(), Vec::new());
    turn(messages, &rust);
    turn(messages, &ours);
    for i in 0..turns {
        let (a, b);
        if i % 2 == 0 {
            a = turn(messages, &rust);
            b = turn(messages, &ours);
        } else {
            b = turn(messages, &ours);
            a = turn(messages, &rust);
        }
        assert_eq!(a.1, b.1, "a hash of {size} bytes differs");
        theirs.push(a.0);
        own.push(b.0);
    }
    Row { size, way, rust: median(theirs), ours: median(own) }
}

/// The time of one message in nanoseconds, and all hashes XORed.
#[inline(always)]
fn turn(messages: &[Vec<u8>], hash: &impl Fn(&[u8]) -> u64) -> (f64, u64) {
    let mut all = 0;
    let began = Instant::now();
    for message in messages.iter().cycle().take(MESSAGES) {
        all ^= black_box(hash(black_box(message)));
    }
    (began.elapsed().as_nanos() as f64 / MESSAGES as f64, all)
}

fn median(mut times: Vec<f64>) -> f64 {
    times.sort_by(f64::total_cmp);
    times[times.len() / 2]
}
