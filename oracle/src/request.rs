//! One request, one answer, in the line format of the cases.

use std::io::{BufRead, Result, Write};

use crate::util::read::{read_u32, read_u64};
use crate::v3::{RapidSecrets, DEFAULT_RAPID_SECRETS};
use crate::words::{number, numbers, Words};
use crate::{file, hashes, stream};

pub const UNANSWERED: &str = "unanswered";
const ERROR: &str = "error";

/// Requests of the line format about things that the crate does not have.
const NOT_IN_RUST: &str = "secret swrite sfinish sreset read find finger write strict shorten save resume \
    append get salvage replay up down";

/// Standard output is flushed at every line, so a driver may ask one request at a time.
pub fn serve(input: impl BufRead, mut output: impl Write) -> Result<()> {
    for line in input.split(b'\n') {
        let line = line?;
        if let Some((request, _)) = case(&String::from_utf8_lossy(&line)) {
            writeln!(output, "{request} = {}", answer(request))?;
        }
    }
    Ok(())
}

/// The request and the stored answer of a line, empty where there is none; `None` for a line to pass over.
pub fn case(line: &str) -> Option<(&str, &str)> {
    let passed_over = line.is_empty() || line.starts_with('#');
    (!passed_over).then(|| line.split_once(" = ").unwrap_or((line, "")))
}

pub fn answer(request: &str) -> String {
    readable(request).unwrap_or_else(|| ERROR.to_string())
}

fn readable(request: &str) -> Option<String> {
    let mut words = Words::of(request);
    match words.word()? {
        kind @ ("full" | "micro" | "nano") => hash(kind, words),
        "seed" => one_number(words).map(|seed| secrets(&RapidSecrets::seed(seed))),
        "seed_cpp" => one_number(words).map(|seed| secrets(&RapidSecrets::seed_cpp(seed))),
        "reseed" => reseed(words),
        "default" => words.end().map(|()| secrets(&DEFAULT_RAPID_SECRETS)),
        "word8" => word(words, 8, read_u64),
        "word4" => word(words, 4, |bytes, offset| read_u32(bytes, offset).into()),
        "calls" => calls(words),
        "file" => file_form(words),
        kind if NOT_IN_RUST.split(' ').any(|name| name == kind) => Some(UNANSWERED.to_string()),
        _ => None,
    }
}

/// A request names PROTECTED before COMPACT, the Rust the other way round.
fn hash(kind: &str, mut words: Words) -> Option<String> {
    let (avalanche, protected, compact) = (words.bit()?, words.bit()?, words.bit()?);
    let (secrets, data) = (words.secrets()?, words.bytes()?);
    words.end()?;
    Some(number(match kind {
        "full" => hashes::full(avalanche, compact, protected, &data, &secrets),
        "micro" => hashes::micro(avalanche, protected, &data, &secrets),
        _ => hashes::nano(avalanche, protected, &data, &secrets),
    }))
}

fn one_number(mut words: Words) -> Option<u64> {
    let value = words.hex()?;
    words.end().map(|()| value)
}

fn reseed(mut words: Words) -> Option<String> {
    let given = words.secrets()?;
    words.end().map(|()| secrets(&given.reseed()))
}

fn secrets(secrets: &RapidSecrets) -> String {
    format!("{} {}", number(secrets.seed), numbers(&secrets.secrets, " "))
}

/// Only a read inside the bytes has an answer in the Rust. Past the end it panics, and near 2^64 its check
/// wraps in a release build; the refusal with its number is the port's own.
fn word(mut words: Words, width: usize, read: impl Fn(&[u8], usize) -> u64) -> Option<String> {
    let (bytes, offset) = (words.bytes()?, words.hex()?);
    words.end()?;
    let inside = usize::try_from(offset)
        .ok()
        .filter(|offset| offset.checked_add(width).is_some_and(|end| end <= bytes.len()));
    Some(match inside {
        Some(offset) => format!("0 {}", number(read(&bytes, offset))),
        None => UNANSWERED.to_string(),
    })
}

fn file_form(mut words: Words) -> Option<String> {
    let data = words.bytes()?;
    words.end().map(|()| file::answer(&data[..]))
}

fn calls(mut words: Words) -> Option<String> {
    let lanes = words.decimal()?;
    let (avalanche, protected, secrets) = (words.bit()?, words.bit()?, words.secrets()?);
    let opening = stream::Opening { secrets, number: words.decimal()? };
    let calls = stream::read_calls(words.word()?)?;
    words.end()?;
    let answered = match lanes {
        7 => stream::answer(avalanche, protected, &opening, &calls),
        // The crate streams the full hash alone.
        5 | 3 => None,
        _ => return None,
    };
    Some(answered.unwrap_or_else(|| UNANSWERED.to_string()))
}
