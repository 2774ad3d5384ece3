//! Checks rule books and drives the engine that runs them: a safe wrapper over the proved library `libexports.a`.
//! The C interface that it calls is described in `faultsieve.h`; the limits are tested on this side too.

use std::error;
use std::fmt;

mod foreign;

/// The least size of the buffer for the line about a book.
pub const LINE: usize = 32;

/// Why a call has no result.
#[derive(Clone, Copy, Debug, PartialEq, Eq)]
pub enum Error {
    /// The buffer is too short: below [`LINE`] bytes for a line, or too short for the transcript. It is as it was.
    ShortBuffer,
    /// Memory ran out. The buffer is as it was.
    NoMemory,
    /// The library answered what its interface rules out, so that nothing in the buffer can be relied on.
    /// That happens where another library was linked than this wrapper is for.
    Unexpected { refusal: u32, length: usize },
}

impl fmt::Display for Error {
    fn fmt(&self, f: &mut fmt::Formatter<'_>) -> fmt::Result {
        match self {
            Error::ShortBuffer => write!(f, "the buffer is too short"),
            Error::NoMemory => write!(f, "memory ran out"),
            Error::Unexpected { refusal, length } => {
                write!(f, "the library answered refusal {refusal} and length {length}")
            }
        }
    }
}

impl error::Error for Error {}

/// Checks a book under a ladder of two ranks and a card of ones, and answers the verdict's line with its line feed.
///
/// The line stands at the start of the buffer, which has to have [`LINE`] bytes or more; the rest of it stays.
///
/// ```
/// let mut line = [0; faultsieve::LINE];
/// assert_eq!(faultsieve::check(&[0; 6], &mut line)?, b"accepted 0\n");
/// assert_eq!(faultsieve::check(&[], &mut line)?, b"refused 1 reader 0\n");
/// # Ok::<(), faultsieve::Error>(())
/// ```
pub fn check<'line>(book: &[u8], line: &'line mut [u8]) -> Result<&'line [u8], Error> {
    if line.len() < LINE {
        return Err(Error::ShortBuffer);
    }
    let answer = foreign::check(book, line);
    written(answer, line)
}

/// Applies a console script to a fresh console and answers its transcript, one line for each answer.
///
/// The transcript stands at the start of the buffer; the rest of it stays.
///
/// ```
/// let mut transcript = [0; 64];
/// let answers = faultsieve::script(b"scale departments 2\ntally\n", &mut transcript)?;
/// assert_eq!(answers, b"ok\ntally 0 0 0\n");
/// # Ok::<(), faultsieve::Error>(())
/// ```
pub fn script<'transcript>(script: &[u8], transcript: &'transcript mut [u8]) -> Result<&'transcript [u8], Error> {
    let answer = foreign::script(script, transcript);
    written(answer, transcript)
}

/// The part of the buffer that was written, by what the library answered.
fn written(answer: foreign::Answer, buffer: &[u8]) -> Result<&[u8], Error> {
    let unexpected = Error::Unexpected { refusal: answer.refusal, length: answer.length };
    match answer.refusal {
        foreign::WRITTEN => buffer.get(..answer.length).ok_or(unexpected),
        foreign::SHORT_BUFFER => Err(Error::ShortBuffer),
        foreign::NO_MEMORY => Err(Error::NoMemory),
        _ => Err(unexpected),
    }
}

#[cfg(test)]
mod tests {
    use super::*;

    fn answer(refusal: u32, length: usize) -> foreign::Answer {
        foreign::Answer { refusal, length }
    }

    #[test]
    fn a_length_within_the_buffer_is_taken() {
        assert_eq!(written(answer(0, 0), b"ok\n"), Ok(&b""[..]));
        assert_eq!(written(answer(0, 3), b"ok\n"), Ok(&b"ok\n"[..]));
    }

    #[test]
    fn a_length_beyond_the_buffer_is_not() {
        let error = Error::Unexpected { refusal: 0, length: 4 };
        assert_eq!(written(answer(0, 4), b"ok\n"), Err(error));
        assert_eq!(error.to_string(), "the library answered refusal 0 and length 4");
    }

    #[test]
    fn refusals_have_errors_of_their_own() {
        assert_eq!(written(answer(20, 0), b"ok\n"), Err(Error::ShortBuffer));
        assert_eq!(written(answer(255, 0), b"ok\n"), Err(Error::NoMemory));
        assert_eq!(written(answer(1, 0), b"ok\n"), Err(Error::Unexpected { refusal: 1, length: 0 }));
    }
}
