//! The stored cases of the programs `booktable` and `console`, held against this implementation byte for byte.
//! The scale and the meter that are for tests alone are written here, as the table has rows under them.

use std::fs;
use std::path::PathBuf;

use plain::judge;
use plain::meter::{Card, Digit, Meter};
use plain::refusal::Refusal;
use plain::scale::{Departments, Ladder, Scale};

/// Four levels: 10 below all, 13 above all, and 11 and 12 between them without an order.
struct Diamond;

impl Scale for Diamond {
    fn known(&self, code: u16) -> bool {
        (10..=13).contains(&code)
    }

    fn at_or_below(&self, low: u16, high: u16) -> bool {
        self.known(low) && self.known(high) && (low == high || low == 10 || high == 13)
    }

    fn join(&self, one: u16, other: u16) -> u16 {
        match (self.at_or_below(one, other), self.at_or_below(other, one)) {
            _ if !self.known(one) || !self.known(other) => 10,
            (true, _) => other,
            (_, true) => one,
            _ => 13,
        }
    }

    fn floor(&self) -> u16 {
        10
    }
}

/// One code charges 3 where its first operand is not 0; all else charges 1.
struct Uneven(u8);

impl Meter for Uneven {
    const LARGEST: u32 = 3;

    fn charge(&self, code: u8, first: i32, _second: i32) -> u32 {
        match code {
            1..=12 if code == self.0 && first != 0 => 3,
            1..=12 => 1,
            _ => 0,
        }
    }

    fn steady(&self, code: u8) -> bool {
        code != self.0
    }
}

fn stored(program: &str, file: &str) -> Vec<u8> {
    let path: PathBuf = [env!("CARGO_MANIFEST_DIR"), "../../crates", program, file].iter().collect();
    fs::read(&path).unwrap_or_else(|error| panic!("{}: {error}", path.display()))
}

fn bytes_of(hex: &str) -> Option<Vec<u8>> {
    if hex == "-" {
        return Some(Vec::new());
    }
    let digits: Option<Vec<u8>> = hex.chars().map(|digit| digit.to_digit(16).map(|value| value as u8)).collect();
    let digits = digits.filter(|digits| !digits.is_empty() && digits.len() % 2 == 0)?;
    Some(digits.chunks(2).map(|pair| pair[0] << 4 | pair[1]).collect())
}

fn number(word: &str) -> Option<u32> {
    word.bytes().all(|byte| byte.is_ascii_digit()).then(|| word.parse().ok())?
}

type Verdict = Result<u32, Refusal>;

/// The verdict of a row, or none if it has not the form of a row.
fn verdict(row: &str) -> Option<Verdict> {
    let words: Vec<&str> = row.split(' ').collect();
    let &[scale, meter, hex] = words.as_slice() else { return None };
    let bytes = bytes_of(hex)?;
    if scale == "diamond" {
        return with_scale(Ok(Diamond), meter, &bytes);
    }
    match scale.split_once(':')? {
        ("ladder", ranks) => with_scale(Ladder::new(number(ranks)?), meter, &bytes),
        ("departments", count) => with_scale(Departments::new(number(count)?), meter, &bytes),
        _ => None,
    }
}

fn with_scale<S: Scale>(scale: Result<S, Refusal>, meter: &str, bytes: &[u8]) -> Option<Verdict> {
    if meter == "digit" {
        return Some(made(scale, Ok(Digit), bytes));
    }
    match meter.split_once(':')? {
        ("card", charges) => {
            let charges: Option<Vec<u32>> = charges.split(',').map(number).collect();
            let charges: [u32; 12] = charges?.try_into().ok()?;
            Some(made(scale, Card::filled(&charges), bytes))
        }
        ("uneven", code) => {
            let code = number(code).filter(|code| (1..=12).contains(code))?;
            Some(made(scale, Ok(Uneven(code as u8)), bytes))
        }
        _ => None,
    }
}

fn made<S: Scale, M: Meter>(scale: Result<S, Refusal>, meter: Result<M, Refusal>, bytes: &[u8]) -> Verdict {
    judge(bytes, &scale?, &meter?).map(|book| book.events())
}

/// Panics at the first line in which two texts differ.
fn compare(ours: &[u8], theirs: &[u8]) {
    let lines = |text: &[u8]| text.split(|&byte| byte == b'\n').map(<[u8]>::to_vec).collect::<Vec<_>>();
    for (at, (our, their)) in lines(ours).iter().zip(lines(theirs)).enumerate() {
        let (our, their) = (String::from_utf8_lossy(our), String::from_utf8_lossy(&their));
        assert_eq!(our, their, "line {} of the answers", at + 1);
    }
    assert!(ours == theirs, "one is longer: {} and {} bytes", ours.len(), theirs.len());
}

#[test]
fn table_of_books() {
    let table = String::from_utf8(stored("booktable", "stdin")).expect("the table is text");
    let mut ours = String::new();
    for row in table.lines().filter(|row| !row.is_empty() && !row.starts_with('#')) {
        match verdict(row) {
            None => ours.push_str("error\n"),
            Some(Ok(events)) => ours.push_str(&format!("accepted {events}\n")),
            Some(Err(refusal)) => ours.push_str(&format!("{refusal}\n")),
        }
    }
    compare(ours.as_bytes(), &stored("booktable", "stdout"));
}

#[test]
fn script_of_calls() {
    compare(&plain::script(&stored("console", "stdin")), &stored("console", "stdout"));
}

#[test]
fn example_books() {
    let examples = [
        ("evened.book", "accepted 1\n"),
        ("uneven-time.book", "refused 11 check 1\n"),
        ("direct-flow.book", "refused 9 check 1\n"),
        ("implicit-flow.book", "refused 10 check 3\n"),
    ];
    for (file, line) in examples {
        assert_eq!(plain::check_line(&stored("../examples", file)), line, "{file}");
    }
}
