//! The console: it drives an engine by a script of calls, a line each, and writes a transcript, a line for each answer.

use std::io::Write;

use crate::engine::{Calls, Engine, Slip, Tally};
use crate::meter::{Card, Digit};
use crate::refusal::Refusal;
use crate::scale::{Departments, Ladder};

/// The transcript of a script on a fresh console.
pub fn script(script: &[u8]) -> Vec<u8> {
    let mut console = Console::new();
    let mut transcript = Vec::new();
    for line in script.split(|&byte| byte == b'\n') {
        console.line(line, &mut transcript);
    }
    transcript
}

#[derive(Clone, Copy)]
enum ScaleChoice {
    Ladder(Ladder),
    Departments(Departments),
}

#[derive(Clone, Copy)]
enum MeterChoice {
    Card(Card),
    Digit,
}

/// What a line of a script asks for.
enum Command {
    Ladder(u32),
    Departments(u32),
    Card([u32; 12]),
    Digit,
    /// The bytes are in the console's own row.
    Load,
    Put(u32, i32),
    Run(u32),
    Show(u16, u32),
    Clock(u16),
    Open(u16, u32, u32),
    Carry(Slip),
    Withdraw(Slip),
    Tally,
}

/// The answer to a line that was accepted.
enum Answer {
    Done,
    Loaded(u32),
    Amount(i32),
    Ticks(u64),
    Opened(Slip),
    Counts(Tally),
}

/// An engine under the scale and the meter that were chosen last.
pub struct Console {
    scale: ScaleChoice,
    meter: MeterChoice,
    engine: Box<dyn Calls>,
    /// The bytes of the book that is being loaded, kept so that they are allocated once.
    bytes: Vec<u8>,
}

impl Default for Console {
    fn default() -> Self {
        Console::new()
    }
}

impl Console {
    /// To begin with there are a ladder of two ranks and a card of ones.
    pub fn new() -> Console {
        let (scale, meter) = (ScaleChoice::Ladder(Ladder::TWO), MeterChoice::Card(Card::ONES));
        Console { scale, meter, engine: fresh(scale, meter), bytes: Vec::new() }
    }

    /// Obeys a line and appends its answer to the transcript. A remark and a line of spaces have none.
    pub fn line(&mut self, line: &[u8], transcript: &mut Vec<u8>) {
        if line.first() == Some(&b'#') || line.iter().all(|&byte| byte == b' ') {
            return;
        }
        match parse(line, &mut self.bytes).map(|command| self.obey(command)) {
            None => transcript.extend_from_slice(b"error\n"),
            Some(Err(refusal)) => print(transcript, format_args!("{refusal}\n")),
            Some(Ok(answer)) => answer.write(transcript),
        }
    }

    fn obey(&mut self, command: Command) -> Result<Answer, Refusal> {
        let engine = &mut self.engine;
        match command {
            Command::Ladder(ranks) => self.choose(ScaleChoice::Ladder(Ladder::new(ranks)?), self.meter),
            Command::Departments(count) => self.choose(ScaleChoice::Departments(Departments::new(count)?), self.meter),
            Command::Card(charges) => self.choose(self.scale, MeterChoice::Card(Card::filled(&charges)?)),
            Command::Digit => self.choose(self.scale, MeterChoice::Digit),
            Command::Load => engine.load(&self.bytes).map(Answer::Loaded),
            Command::Put(figure, amount) => engine.put(figure, amount).map(|()| Answer::Done),
            Command::Run(event) => engine.run(event).map(|()| Answer::Done),
            Command::Show(level, figure) => engine.show(level, figure).map(Answer::Amount),
            Command::Clock(level) => engine.clock(level).map(Answer::Ticks),
            Command::Open(holder, from, to) => engine.open(holder, from, to).map(Answer::Opened),
            Command::Carry(slip) => engine.carry(slip).map(|()| Answer::Done),
            Command::Withdraw(slip) => engine.withdraw(slip).map(|()| Answer::Done),
            Command::Tally => Ok(Answer::Counts(engine.tally())),
        }
    }

    /// Puts a fresh engine in the place of the present one.
    fn choose(&mut self, scale: ScaleChoice, meter: MeterChoice) -> Result<Answer, Refusal> {
        *self = Console { scale, meter, engine: fresh(scale, meter), bytes: std::mem::take(&mut self.bytes) };
        Ok(Answer::Done)
    }
}

/// An engine of the type that belongs to a scale and a meter, so that its runs ask neither which they are.
fn fresh(scale: ScaleChoice, meter: MeterChoice) -> Box<dyn Calls> {
    match (scale, meter) {
        (ScaleChoice::Ladder(ladder), MeterChoice::Card(card)) => Box::new(Engine::new(ladder, card)),
        (ScaleChoice::Ladder(ladder), MeterChoice::Digit) => Box::new(Engine::new(ladder, Digit)),
        (ScaleChoice::Departments(departments), MeterChoice::Card(card)) => Box::new(Engine::new(departments, card)),
        (ScaleChoice::Departments(departments), MeterChoice::Digit) => Box::new(Engine::new(departments, Digit)),
    }
}

impl Answer {
    fn write(self, transcript: &mut Vec<u8>) {
        match self {
            Answer::Done => transcript.extend_from_slice(b"ok\n"),
            Answer::Loaded(events) => print(transcript, format_args!("accepted {events}\n")),
            Answer::Amount(amount) => print(transcript, format_args!("amount {amount}\n")),
            Answer::Ticks(ticks) => print(transcript, format_args!("clock {ticks}\n")),
            Answer::Opened(Slip { holder, from, to, number }) => {
                print(transcript, format_args!("slip {holder} {from} {to} {number}\n"));
            }
            Answer::Counts(Tally { openings, carries, withdrawals }) => {
                print(transcript, format_args!("tally {openings} {carries} {withdrawals}\n"));
            }
        }
    }
}

fn print(transcript: &mut Vec<u8>, text: std::fmt::Arguments<'_>) {
    transcript.write_fmt(text).expect("a vector takes all bytes");
}

/// What a line asks for, or none if it has not the form of any call. The bytes of a load go to the row given.
fn parse(line: &[u8], bytes: &mut Vec<u8>) -> Option<Command> {
    let mut words = line.split(|&byte| byte == b' ');
    let first = words.next()?;
    let mut word = || words.next();
    let command = match first {
        b"scale" => scale(&mut word)?,
        b"meter" => meter(&mut word)?,
        b"load" => {
            decode_hex(word().unwrap_or(b"-"), bytes)?;
            Command::Load
        }
        b"put" => Command::Put(number(word()?)?, amount(word()?)?),
        b"run" => Command::Run(number(word()?)?),
        b"show" => Command::Show(level(word()?)?, number(word()?)?),
        b"clock" => Command::Clock(level(word()?)?),
        b"open" => Command::Open(level(word()?)?, number(word()?)?, number(word()?)?),
        b"carry" => Command::Carry(slip(&mut word)?),
        b"withdraw" => Command::Withdraw(slip(&mut word)?),
        b"tally" => Command::Tally,
        _ => return None,
    };
    words.next().is_none().then_some(command)
}

fn scale<'a>(word: &mut impl FnMut() -> Option<&'a [u8]>) -> Option<Command> {
    match word()? {
        b"ladder" => Some(Command::Ladder(number(word()?)?)),
        b"departments" => Some(Command::Departments(number(word()?)?)),
        _ => None,
    }
}

fn meter<'a>(word: &mut impl FnMut() -> Option<&'a [u8]>) -> Option<Command> {
    match word()? {
        b"card" => {
            let mut charges = [0; 12];
            for charge in &mut charges {
                *charge = number(word()?)?;
            }
            Some(Command::Card(charges))
        }
        b"digit" => Some(Command::Digit),
        _ => None,
    }
}

fn slip<'a>(word: &mut impl FnMut() -> Option<&'a [u8]>) -> Option<Slip> {
    let holder = level(word()?)?;
    let mut next = || number(word()?);
    Some(Slip { holder, from: next()?, to: next()?, number: next()? })
}

/// A number of one or more decimal digits that fits 32 bits.
fn number(word: &[u8]) -> Option<u32> {
    if word.is_empty() {
        return None;
    }
    word.iter().try_fold(0u32, |value, &byte| {
        let digit = byte.wrapping_sub(b'0');
        if digit > 9 {
            return None;
        }
        value.checked_mul(10)?.checked_add(u32::from(digit))
    })
}

fn level(word: &[u8]) -> Option<u16> {
    number(word)?.try_into().ok()
}

/// An amount: a number that may have a minus sign.
fn amount(word: &[u8]) -> Option<i32> {
    match word.strip_prefix(b"-") {
        Some(digits) => 0i32.checked_sub_unsigned(number(digits)?),
        None => number(word)?.try_into().ok(),
    }
}

/// The value of each byte as a hexadecimal digit, or 255.
const HEX: [u8; 256] = {
    let mut values = [255; 256];
    let mut value = 0;
    while value < 16 {
        values[b"0123456789abcdef"[value] as usize] = value as u8;
        values[b"0123456789ABCDEF"[value] as usize] = value as u8;
        value += 1;
    }
    values
};

/// Puts the bytes that a word of hexadecimal digits stands for into a row; a dash stands for none.
fn decode_hex(word: &[u8], bytes: &mut Vec<u8>) -> Option<()> {
    bytes.clear();
    if word == b"-" {
        return Some(());
    }
    let (pairs, rest) = word.as_chunks::<2>();
    if word.is_empty() || !rest.is_empty() {
        return None;
    }
    // All values together stay below 16 if each of them is that of a digit.
    let mut values = 0;
    bytes.extend(pairs.iter().map(|&[high, low]| {
        let (high, low) = (HEX[usize::from(high)], HEX[usize::from(low)]);
        values |= high | low;
        high << 4 | low
    }));
    (values < 16).then_some(())
}
