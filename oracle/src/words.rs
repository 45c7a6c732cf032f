//! The words of a request, read one after another, and the words that answers are made of. Reading is
//! strict, and `None` means an unreadable request: an oracle that guesses what was meant hides mistakes.

use crate::v3::RapidSecrets;

pub struct Words<'a>(std::str::Split<'a, char>);

impl<'a> Words<'a> {
    pub fn of(request: &'a str) -> Self {
        Words(request.split(' '))
    }

    pub fn word(&mut self) -> Option<&'a str> {
        self.0.next()
    }

    /// A request with more words than its kind takes is unreadable too.
    pub fn end(&mut self) -> Option<()> {
        self.0.next().is_none().then_some(())
    }

    pub fn bit(&mut self) -> Option<bool> {
        match self.word()? {
            "0" => Some(false),
            "1" => Some(true),
            _ => None,
        }
    }

    pub fn hex(&mut self) -> Option<u64> {
        let word = self.word()?;
        // from_str_radix alone would take a sign and capital letters as well.
        let plain = word.len() <= 16 && word.bytes().all(|digit| nibble(digit).is_some());
        plain.then(|| u64::from_str_radix(word, 16).ok()).flatten()
    }

    pub fn decimal(&mut self) -> Option<u16> {
        let word = self.word()?;
        let plain = word.bytes().all(|digit| digit.is_ascii_digit());
        plain.then(|| word.parse().ok()).flatten()
    }

    pub fn bytes(&mut self) -> Option<Vec<u8>> {
        match self.word()? {
            "-" => Some(Vec::new()),
            "" => None,
            word => unhex(word),
        }
    }

    pub fn secrets(&mut self) -> Option<RapidSecrets> {
        let seed = self.hex()?;
        let mut secrets = [0; 7];
        for secret in &mut secrets {
            *secret = self.hex()?;
        }
        Some(RapidSecrets { seed, secrets })
    }
}

/// The bytes of a run of digits, which may be empty: an empty write has no `-`.
pub fn unhex(digits: &str) -> Option<Vec<u8>> {
    let byte = |pair: &[u8]| match pair {
        &[high, low] => Some(nibble(high)? << 4 | nibble(low)?),
        _ => None,
    };
    digits.as_bytes().chunks(2).map(byte).collect()
}

fn nibble(digit: u8) -> Option<u8> {
    match digit {
        b'0'..=b'9' => Some(digit - b'0'),
        b'a'..=b'f' => Some(digit - b'a' + 10),
        _ => None,
    }
}

pub fn number(value: u64) -> String {
    format!("{value:016x}")
}

/// Numbers joined by what separates them at their place: a space between words, a comma inside a STATE.
pub fn numbers(values: &[u64], separator: &str) -> String {
    values.iter().copied().map(number).collect::<Vec<_>>().join(separator)
}
