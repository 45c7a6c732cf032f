//! Stored answers against the Rust's.

use std::io::{Result, Write};
use std::process::ExitCode;

use crate::request::{answer, case, UNANSWERED};

/// One mistake can make every case differ, and a few of them tell as much as all.
const SHOWN: usize = 5;

#[derive(Default)]
struct Count {
    agree: usize,
    differ: usize,
    unanswered: usize,
}

pub fn files(paths: &[String], mut output: impl Write) -> Result<ExitCode> {
    let mut total = Count::default();
    for path in paths {
        let text = std::fs::read_to_string(path)
            .map_err(|error| std::io::Error::new(error.kind(), format!("{path}: {error}")))?;
        let count = file(&text, SHOWN.saturating_sub(total.differ), &mut output)?;
        report(path, &count, &mut output)?;
        total.agree += count.agree;
        total.differ += count.differ;
        total.unanswered += count.unanswered;
    }
    report("all", &total, &mut output)?;
    Ok(if total.differ == 0 { ExitCode::SUCCESS } else { ExitCode::FAILURE })
}

/// A line without a stored answer, and one that cannot be read, differ: a check that passes over them in
/// silence would pass on a broken file.
fn file(text: &str, shown: usize, output: &mut impl Write) -> Result<Count> {
    let mut count = Count::default();
    for (request, stored) in text.lines().filter_map(case) {
        let ours = answer(request);
        if ours == UNANSWERED {
            count.unanswered += 1;
        } else if ours == stored {
            count.agree += 1;
        } else {
            if count.differ < shown {
                writeln!(output, "differs: {request}\n  stored: {stored}\n  oracle: {ours}")?;
            }
            count.differ += 1;
        }
    }
    Ok(count)
}

fn report(name: &str, count: &Count, output: &mut impl Write) -> Result<()> {
    let Count { agree, differ, unanswered } = count;
    writeln!(output, "{name}: {agree} agree, {differ} differ, {unanswered} unanswered")
}
