//! Label records: reading, finding a field, and the fingerprint.
use crate::{ffi, RapidSecrets};
use std::error::Error;
use std::fmt;

/// Why a record, or a search in it, is refused.
#[derive(Clone, Copy, Debug, PartialEq, Eq, Hash)]
#[non_exhaustive]
pub enum Why {
    /// 5: a record of more than 8,192 bytes.
    TooLong,
    /// 6: a field is cut.
    Cut,
    /// 7: there is no field with this tag.
    NoSuchTag,
    /// 8: the tag is not above the one before.
    NotAbove,
    /// 9: the length is outside the limits of the tag.
    BadLength,
    /// 10: the accession number or the title is missing.
    Missing,
    /// 11: the record has none of the listed tags.
    NotListed,
    /// A number that this crate does not know, of a library that is newer than it.
    Other(u64),
}

/// A refusal: why, and where in the record.
#[derive(Clone, Copy, Debug, PartialEq, Eq, Hash)]
#[non_exhaustive]
pub struct RecordError {
    /// Why.
    pub why: Why,
    /// The first byte of the field, or the record's length where something is missing at its end, or 0.
    pub place: usize,
}

/// A field of a record.
#[derive(Clone, Copy, Debug, PartialEq, Eq)]
#[non_exhaustive]
pub struct Field<'r> {
    /// Its tag.
    pub tag: u8,
    /// The place of its first byte.
    pub place: usize,
    /// Its value: the record's own bytes.
    pub value: &'r [u8],
}

/// Whether a record is good.
pub fn read(record: &[u8]) -> Result<(), RecordError> {
    // SAFETY: the pointer and the length are a slice's, and the library only reads.
    done(unsafe { ffi::tulgranie_read(record.as_ptr(), record.len()) }).map(|_| ())
}

/// The field of the first tag of a list that a good record has.
pub fn find<'r>(record: &'r [u8], tags: &[u8]) -> Result<Field<'r>, RecordError> {
    // SAFETY: as in `read`, for both.
    let answer =
        done(unsafe { ffi::tulgranie_find(record.as_ptr(), record.len(), tags.as_ptr(), tags.len()) })?;
    let start = answer.start as usize;
    Ok(Field {
        tag: answer.tag as u8,
        place: answer.place as usize,
        value: &record[start..start + answer.length as usize],
    })
}

/// The fingerprint of a good record.
pub fn fingerprint(record: &[u8], secrets: RapidSecrets) -> Result<u64, RecordError> {
    // SAFETY: as in `read`.
    done(unsafe { ffi::tulgranie_fingerprint(record.as_ptr(), record.len(), secrets) })
        .map(|answer| answer.fingerprint)
}

fn done(answer: ffi::Answer) -> Result<ffi::Answer, RecordError> {
    match answer.number {
        0 => Ok(answer),
        number => Err(RecordError { why: Why::of(number), place: answer.place as usize }),
    }
}

impl Why {
    /// The refusal that a number stands for; a number that is none of the listed ones stays what it is.
    fn of(number: u64) -> Self {
        match number {
            5 => Why::TooLong,
            6 => Why::Cut,
            7 => Why::NoSuchTag,
            8 => Why::NotAbove,
            9 => Why::BadLength,
            10 => Why::Missing,
            11 => Why::NotListed,
            other => Why::Other(other),
        }
    }

    /// The number by which the rules know it.
    pub fn number(self) -> u64 {
        match self {
            Why::TooLong => 5,
            Why::Cut => 6,
            Why::NoSuchTag => 7,
            Why::NotAbove => 8,
            Why::BadLength => 9,
            Why::Missing => 10,
            Why::NotListed => 11,
            Why::Other(number) => number,
        }
    }
}

impl fmt::Display for Why {
    fn fmt(&self, f: &mut fmt::Formatter<'_>) -> fmt::Result {
        f.write_str(match self {
            Why::TooLong => "the record has more than 8,192 bytes",
            Why::Cut => "a field is cut",
            Why::NoSuchTag => "there is no field with this tag",
            Why::NotAbove => "the tag is not above the one before",
            Why::BadLength => "the length is outside the limits of the tag",
            Why::Missing => "the accession number or the title is missing",
            Why::NotListed => "the record has none of the listed tags",
            Why::Other(_) => "refused for a reason that this version does not know",
        })
    }
}

impl fmt::Display for RecordError {
    fn fmt(&self, f: &mut fmt::Formatter<'_>) -> fmt::Result {
        write!(f, "{} at {}: {}", self.why.number(), self.place, self.why)
    }
}

impl Error for RecordError {}

#[cfg(test)]
mod tests {
    use super::{done, Why};
    use crate::ffi::Answer;

    /// What a library with more refusals than this crate knows would answer.
    fn answer(number: u64) -> Answer {
        Answer { number, place: 4, tag: 0, start: 0, length: 0, fingerprint: 0 }
    }

    #[test]
    fn every_number_comes_back_as_itself() {
        for number in 1..=300 {
            let error = done(answer(number)).map(|_| ()).unwrap_err();
            assert_eq!((error.why.number(), error.place), (number, 4));
            assert_eq!(error.why == Why::NotListed, number == 11);
            assert_eq!(matches!(error.why, Why::Other(_)), !(5..=11).contains(&number));
            assert!(error.to_string().starts_with(&format!("{number} at 4: ")));
        }
    }

    #[test]
    fn zero_is_no_refusal() {
        assert!(done(answer(0)).is_ok());
    }
}
