//! Compares Faultsieve with the plain implementation on random books and random scripts of calls, byte for byte.
//!
//!     oracle [COUNT] [SEED]
//!
//! It prints what the cases came to, and ends with status 1 at the first difference.

use std::collections::BTreeMap;
use std::io::{self, Write};
use std::process::ExitCode;

use bench::author;
use bench::caller::{Dialogue, dialogue};
use bench::counts::{Counts, Outcome, answered_lines};
use bench::draft::hex;
use bench::long::long_scripts;
use bench::random::Random;
use faultsieve::{Error, LINE};
use plain::meter::Card;
use plain::scale::Ladder;

/// Stands in buffers before a call, to see which bytes were not written.
const UNTOUCHED: u8 = 0xa5;

/// A difference, told in bytes because scripts need not be text.
struct Difference(Vec<u8>);

fn main() -> ExitCode {
    let mut numbers = std::env::args().skip(1).map(|word| word.parse::<u64>());
    let (Ok(count), Ok(seed)) = (numbers.next().unwrap_or(Ok(100_000)), numbers.next().unwrap_or(Ok(1))) else {
        eprintln!("usage: oracle [COUNT] [SEED]");
        return ExitCode::from(2);
    };
    let mut tallies = Tallies::default();
    match compare_all(count, seed, &mut tallies) {
        Err(Difference(text)) => {
            io::stdout().write_all(&text).expect("standard output can be written");
            ExitCode::FAILURE
        }
        Ok(()) => {
            println!("cases: {count} random ones (seed {seed}), and {} long scripts", tallies.long);
            println!("books by themselves:");
            for outcome in std::iter::once(Outcome::Accepted).chain((1..=11).map(Outcome::Refused)) {
                println!("  {:<11} {}", outcome.to_string(), tallies.books.get(&outcome).unwrap_or(&0));
            }
            print!("lines of scripts:\n{}", tallies.calls);
            println!("no difference");
            ExitCode::SUCCESS
        }
    }
}

/// What the cases came to.
#[derive(Default)]
struct Tallies {
    books: BTreeMap<Outcome, u64>,
    calls: Counts,
    long: usize,
}

fn compare_all(count: u64, seed: u64, tallies: &mut Tallies) -> Result<(), Difference> {
    for case in 0..count {
        compare_case(seed, case, tallies).map_err(|Difference(text)| {
            let mut told = format!("seed {seed}, case {case}:\n").into_bytes();
            told.extend(text);
            Difference(told)
        })?;
    }
    for script in long_scripts() {
        let transcript = plain::script(&script);
        compare_script(&Dialogue { script, transcript }, &mut tallies.calls)?;
        tallies.long += 1;
    }
    Ok(())
}

/// One book and one script, which hang on nothing but the seed and the number of the case.
fn compare_case(seed: u64, case: u64, tallies: &mut Tallies) -> Result<(), Difference> {
    let mixed = Random::new(Random::new(seed).bits() ^ case).bits();
    let random = &mut Random::new(mixed);

    let book = author::book(random, &Ladder::TWO, &Card::ONES);
    let line = compare_line(&book)?;
    *tallies.books.entry(Outcome::of(line.as_bytes())).or_default() += 1;

    let lines = random.between(5, 60);
    let dialogue = dialogue(random, lines);
    if plain::script(&dialogue.script) != dialogue.transcript {
        return Err(Difference(b"the plain implementation answers line by line otherwise than at once\n".into()));
    }
    compare_script(&dialogue, &mut tallies.calls)?;
    compare_buffers(&dialogue)
}

fn compare_line(book: &[u8]) -> Result<String, Difference> {
    let expected = plain::check_line(book);
    let mut buffer = [UNTOUCHED; LINE + 8];
    let answer = faultsieve::check(book, &mut buffer).map(|line| String::from_utf8_lossy(line).into_owned());
    if answer.as_ref() == Ok(&expected) && untouched(&buffer[expected.len()..]) {
        return Ok(expected);
    }
    let text = format!(
        "the book {}\nplain answers      {expected:?}\nfaultsieve answers {answer:?}\nbuffer             {buffer:?}\n",
        hex(book)
    );
    Err(Difference(text.into_bytes()))
}

fn compare_script(dialogue: &Dialogue, calls: &mut Counts) -> Result<(), Difference> {
    let Dialogue { script, transcript } = dialogue;
    let mut buffer = vec![UNTOUCHED; transcript.len() + 100];
    let answer = faultsieve::script(script, &mut buffer);
    if answer != Ok(transcript) {
        return Err(first_difference(dialogue, answer));
    }
    calls.add_script(script, transcript);
    Ok(())
}

/// Looks at what a call leaves of the buffer: with room to spare, just long enough, and one byte too short.
fn compare_buffers(dialogue: &Dialogue) -> Result<(), Difference> {
    let Dialogue { script, transcript } = dialogue;
    let length = transcript.len();
    let mut buffer = vec![UNTOUCHED; length + 100];
    let spare = faultsieve::script(script, &mut buffer).is_ok() && untouched(&buffer[length..]);
    let fits = faultsieve::script(script, &mut buffer[..length]) == Ok(transcript);
    buffer.fill(UNTOUCHED);
    let short = length == 0 || faultsieve::script(script, &mut buffer[..length - 1]) == Err(Error::ShortBuffer);
    let kept = untouched(&buffer);
    if spare && fits && short && kept {
        return Ok(());
    }
    let mut text = format!(
        "the buffer: rest stays {spare}, just enough fits {fits}, too short is refused {short} and kept {kept}\n"
    )
    .into_bytes();
    text.extend_from_slice(script);
    Err(Difference(text))
}

fn untouched(bytes: &[u8]) -> bool {
    bytes.iter().all(|&byte| byte == UNTOUCHED)
}

/// The first answers that differ, and the script up to there.
fn first_difference(dialogue: &Dialogue, answer: Result<&[u8], Error>) -> Difference {
    let mut ours = answer.unwrap_or_default().split_inclusive(|&byte| byte == b'\n');
    let mut theirs = dialogue.transcript.split_inclusive(|&byte| byte == b'\n');
    let mut text = Vec::new();
    for line in answered_lines(&dialogue.script) {
        let (plain, faultsieve) = (theirs.next().unwrap_or_default(), ours.next().unwrap_or_default());
        text.extend_from_slice(line);
        text.push(b'\n');
        if plain != faultsieve {
            let (plain, faultsieve) = (plain.escape_ascii(), faultsieve.escape_ascii());
            text.extend(format!("plain answers      {plain}\nfaultsieve answers {faultsieve}\n").into_bytes());
            break;
        }
    }
    if let Err(error) = answer {
        text.extend(format!("faultsieve as a whole: {error}\n").into_bytes());
    }
    text.extend_from_slice(b"the script, whole:\n");
    text.extend_from_slice(&dialogue.script);
    Difference(text)
}
