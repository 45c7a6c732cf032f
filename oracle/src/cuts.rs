//! Messages written whole and cut in every way, run by the Rust's stream hasher: the lines that a program of
//! this repository replays with its own stream. Every number is counted by comparing two runs.

use std::io::{Result, Write};

use crate::first_run::message;
use crate::hashes::full;
use crate::stream::chunks;
use crate::v3::{RapidSecrets, RapidStreamHasherInlineV3};
use crate::words::number;

/// Around the ends of the short path, of one chunk and of two, and two of nine chunks.
const LENGTHS: [usize; 15] = [0, 1, 15, 16, 17, 111, 112, 113, 114, 223, 224, 225, 226, 999, 1000];

pub fn print(mut output: impl Write) -> Result<()> {
    let secrets = RapidSecrets::seed(0x0123456789abcdef);
    for length in LENGTHS {
        let message = message(length);
        let line = match length % 2 {
            0 => Cuts::<true, false> { secrets: &secrets, message: &message }.line(),
            _ => Cuts::<false, true> { secrets: &secrets, message: &message }.line(),
        };
        writeln!(output, "{line}")?;
    }
    Ok(())
}

/// A hash, and the number of chunks mixed.
type End = (u64, usize);

/// The Rust's hasher beside the bytes it accepted, from which the number of chunks follows.
struct Stream<'a, const AVALANCHE: bool, const PROTECTED: bool> {
    hasher: RapidStreamHasherInlineV3<'a, AVALANCHE, PROTECTED>,
    accepted: Vec<u8>,
}

impl<const AVALANCHE: bool, const PROTECTED: bool> Stream<'_, AVALANCHE, PROTECTED> {
    fn write(&mut self, part: &[u8]) {
        self.hasher.write(part);
        self.accepted.extend_from_slice(part);
    }

    fn reset(&mut self) {
        self.hasher.reset();
        self.accepted.clear();
    }

    fn end(&self) -> End {
        (self.hasher.finish(), chunks(&self.accepted))
    }
}

struct Cuts<'a, const AVALANCHE: bool, const PROTECTED: bool> {
    secrets: &'a RapidSecrets,
    message: &'a [u8],
}

impl<'a, const AVALANCHE: bool, const PROTECTED: bool> Cuts<'a, AVALANCHE, PROTECTED> {
    fn line(&self) -> String {
        let wanted = self.after(&[self.message]).end();
        [
            format!("{} {} {}", self.message.len(), number(wanted.0), wanted.1),
            format!("two {}", self.two_parts(wanted)),
            format!("three {}", self.three_parts(wanted)),
            format!("bytes {}", u8::from(self.byte_by_byte() == wanted)),
            format!("empty {}", u8::from(self.with_empty_writes() == wanted)),
            format!("middle {}", self.finished_between(wanted)),
            format!("again {}", u8::from(self.again() == wanted)),
        ]
        .join(" ")
    }

    fn after(&self, parts: &[&[u8]]) -> Stream<'a, AVALANCHE, PROTECTED> {
        let hasher = RapidStreamHasherInlineV3::new(self.secrets);
        let mut stream = Stream { hasher, accepted: Vec::new() };
        parts.iter().for_each(|part| stream.write(part));
        stream
    }

    fn two_parts(&self, wanted: End) -> usize {
        let end = |i| self.after(&[&self.message[..i], &self.message[i..]]).end();
        (0..=self.message.len()).filter(|&i| end(i) == wanted).count()
    }

    fn three_parts(&self, wanted: End) -> usize {
        let m = self.message;
        let end = |i: usize, j: usize| self.after(&[&m[..i], &m[i..j], &m[j..]]).end();
        let with_first = |i| (i..=m.len()).filter(|&j| end(i, j) == wanted).count();
        (0..=m.len()).map(with_first).sum()
    }

    fn byte_by_byte(&self) -> End {
        self.after(&self.message.chunks(1).collect::<Vec<_>>()).end()
    }

    fn with_empty_writes(&self) -> End {
        let (first, second) = self.message.split_at(self.message.len() / 2);
        self.after(&[&[], first, &[], second, &[]]).end()
    }

    /// A cut counts only where the finish between the parts finds the one-shot hash of the first.
    fn finished_between(&self, wanted: End) -> usize {
        let holds = |i: &usize| {
            let (first, second) = self.message.split_at(*i);
            let mut stream = self.after(&[first]);
            let between = stream.end().0;
            stream.write(second);
            between == full(AVALANCHE, false, PROTECTED, first, self.secrets) && stream.end() == wanted
        };
        (0..=self.message.len()).filter(holds).count()
    }

    fn again(&self) -> End {
        let (first, second) = self.message.split_at(self.message.len() / 2);
        let mut stream = self.after(&[self.message]);
        stream.reset();
        stream.write(first);
        stream.write(second);
        stream.end()
    }
}
