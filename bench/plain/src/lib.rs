//! The rules of rule books once more, in plain Rust and written apart from the proved crates.
//! It is an oracle that the proved code is compared with, and the baseline for its speed.
//!
//! Bytes become a book in [`reader`], [`check`] judges a book under a scale and a meter,
//! [`engine`] runs checked books, and [`console`] drives an engine by a script.

pub mod book;
pub mod check;
pub mod console;
pub mod engine;
pub mod meter;
pub mod reader;
pub mod refusal;
mod run;
pub mod scale;

pub use console::script;

use book::Book;
use meter::{Card, Meter};
use refusal::Refusal;
use scale::{Ladder, Scale};

/// Reads a book and checks it; the book comes back if it is accepted.
pub fn judge<S: Scale, M: Meter>(bytes: &[u8], scale: &S, meter: &M) -> Result<Book, Refusal> {
    let book = reader::read(bytes)?;
    check::check(&book, scale, meter)?;
    Ok(book)
}

/// The line about a book, with its line feed, under a ladder of two ranks and a card of ones.
pub fn check_line(bytes: &[u8]) -> String {
    match judge(bytes, &Ladder::TWO, &Card::ONES) {
        Ok(book) => format!("accepted {}\n", book.events()),
        Err(refusal) => format!("{refusal}\n"),
    }
}
