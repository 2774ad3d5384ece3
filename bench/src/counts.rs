//! Counts of what the cases of a comparison came to: how often each kind of line was accepted, and refused by which number.

use std::collections::BTreeMap;
use std::fmt;

/// What an answer says, as far as it is counted.
#[derive(Clone, Copy, Debug, PartialEq, Eq, PartialOrd, Ord)]
pub enum Outcome {
    Accepted,
    Refused(u32),
    /// The line had not the form of a call.
    Error,
}

impl Outcome {
    /// The outcome that a line of a transcript tells.
    pub fn of(answer: &[u8]) -> Outcome {
        let mut words = answer.trim_ascii_end().split(|&byte| byte == b' ');
        match words.next() {
            Some(b"refused") => {
                let digits = words.next().unwrap_or_default();
                Outcome::Refused(String::from_utf8_lossy(digits).parse().unwrap_or(0))
            }
            Some(b"error") => Outcome::Error,
            _ => Outcome::Accepted,
        }
    }
}

impl fmt::Display for Outcome {
    fn fmt(&self, f: &mut fmt::Formatter<'_>) -> fmt::Result {
        match self {
            Outcome::Accepted => write!(f, "accepted"),
            Outcome::Refused(number) => write!(f, "refused {number}"),
            Outcome::Error => write!(f, "error"),
        }
    }
}

/// The kinds of lines that are counted apart; all else is counted as the last of them.
const KINDS: [&str; 12] =
    ["scale", "meter", "load", "put", "run", "show", "clock", "open", "carry", "withdraw", "tally", "other"];

/// Counts for each kind of line and each outcome.
#[derive(Default)]
pub struct Counts {
    counts: BTreeMap<(usize, Outcome), u64>,
}

impl Counts {
    /// Counts an outcome of a kind, the kind by its first word.
    pub fn add(&mut self, word: &[u8], outcome: Outcome) {
        let kind = KINDS.iter().position(|kind| kind.as_bytes() == word).unwrap_or(KINDS.len() - 1);
        *self.counts.entry((kind, outcome)).or_default() += 1;
    }

    /// Counts the answers to all lines of a script.
    pub fn add_script(&mut self, script: &[u8], transcript: &[u8]) {
        for (line, answer) in answered_lines(script).zip(transcript.split(|&byte| byte == b'\n')) {
            let word = line.split(|&byte| byte == b' ').next().unwrap_or_default();
            self.add(word, Outcome::of(answer));
        }
    }
}

/// The lines of a script that have an answer: neither remarks nor nothing but spaces.
pub fn answered_lines(script: &[u8]) -> impl Iterator<Item = &[u8]> {
    script.split(|&byte| byte == b'\n').filter(|line| !line.starts_with(b"#") && line.iter().any(|&byte| byte != b' '))
}

impl fmt::Display for Counts {
    fn fmt(&self, f: &mut fmt::Formatter<'_>) -> fmt::Result {
        for (kind, word) in KINDS.iter().enumerate() {
            let outcomes = self.counts.range((kind, Outcome::Accepted)..=(kind, Outcome::Error));
            let row: Vec<String> = outcomes.map(|((_, outcome), count)| format!("{outcome}: {count}")).collect();
            if !row.is_empty() {
                writeln!(f, "  {word:<9} {}", row.join(", "))?;
            }
        }
        Ok(())
    }
}
