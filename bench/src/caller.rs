//! A caller who makes random scripts of calls. It asks the plain implementation as it goes, so that it knows
//! how many events there are and which slip is out, and can be right or wrong about them on purpose.

use plain::console::Console;
use plain::meter::{Card, Digit};
use plain::scale::{Departments, Ladder};

use crate::author;
use crate::draft::hex;
use crate::random::Random;

/// A script and the transcript that the plain implementation answers.
pub struct Dialogue {
    pub script: Vec<u8>,
    pub transcript: Vec<u8>,
}

/// A random script of about so many lines.
pub fn dialogue(random: &mut Random, lines: u32) -> Dialogue {
    let mut caller = Caller::new(random);
    if caller.random.chance(80) {
        caller.scale();
        caller.meter();
    }
    if caller.random.chance(90) {
        caller.load();
    }
    for _ in 0..lines {
        caller.call();
    }
    // The last line may end with the script.
    if caller.random.chance(20) {
        caller.script.pop();
    }
    Dialogue { script: caller.script, transcript: caller.transcript }
}

enum ScaleKind {
    Ladder(Ladder),
    Departments(Departments),
}

enum MeterKind {
    Card(Card),
    Digit,
}

struct Caller<'a> {
    random: &'a mut Random,
    console: Console,
    script: Vec<u8>,
    transcript: Vec<u8>,
    scale: ScaleKind,
    /// The highest level of the scale.
    highest: u16,
    meter: MeterKind,
    /// How many events the loaded book has, if there is one.
    events: Option<u32>,
    /// Whether a slip is out.
    out: bool,
    /// The four numbers of the slip that was opened last, as words.
    slip: String,
}

impl<'a> Caller<'a> {
    fn new(random: &'a mut Random) -> Caller<'a> {
        Caller {
            random,
            console: Console::new(),
            script: Vec::new(),
            transcript: Vec::new(),
            scale: ScaleKind::Ladder(Ladder::TWO),
            highest: 1,
            meter: MeterKind::Card(Card::ONES),
            events: None,
            out: false,
            slip: "0 0 1 1".into(),
        }
    }

    /// Adds a line to the script and its answer to the transcript.
    fn say(&mut self, line: &[u8]) {
        let before = self.transcript.len();
        self.script.extend_from_slice(line);
        self.script.push(b'\n');
        self.console.line(line, &mut self.transcript);
        let answer = String::from_utf8_lossy(&self.transcript[before..]).trim_end().to_owned();
        self.learn(line, &answer);
    }

    /// Keeps in mind what an answer tells.
    fn learn(&mut self, line: &[u8], answer: &str) {
        if let Some(numbers) = answer.strip_prefix("slip ") {
            self.slip = numbers.into();
            self.out = true;
        } else if let Some(events) = answer.strip_prefix("accepted ") {
            self.events = events.parse().ok();
        } else if answer == "ok" && (line.starts_with(b"carry") || line.starts_with(b"withdraw")) {
            self.out = false;
        } else if answer == "ok" && (line.starts_with(b"scale") || line.starts_with(b"meter")) {
            self.events = None;
            self.out = false;
        }
    }

    fn call(&mut self) {
        if self.events.is_none() && self.random.chance(40) {
            return self.load();
        }
        match self.random.below(100) {
            0..22 => self.put(),
            22..44 => self.run(),
            44..60 => self.show(),
            60..68 => self.clock(),
            68..82 if self.out => self.end_slip(),
            68..82 => self.open(),
            82..85 => self.open(),
            85..88 => self.end_slip(),
            88..90 => self.say(b"tally"),
            90..95 => self.load(),
            95 if self.random.chance(40) => self.scale(),
            96 if self.random.chance(40) => self.meter(),
            _ => self.malformed(),
        }
    }

    fn scale(&mut self) {
        if self.random.chance(50) {
            let ranks = self.random.choose(&[0, 1, 2, 2, 2, 3, 3, 5, 255, 256, 257, u32::MAX]);
            if let Ok(ladder) = Ladder::new(ranks) {
                (self.scale, self.highest) = (ScaleKind::Ladder(ladder), (ranks - 1) as u16);
            }
            self.say(format!("scale ladder {ranks}").as_bytes());
        } else {
            let count = self.random.choose(&[0, 1, 2, 2, 3, 3, 7, 8, 9, u32::MAX]);
            if let Ok(departments) = Departments::new(count) {
                (self.scale, self.highest) = (ScaleKind::Departments(departments), (1 << count) - 1);
            }
            self.say(format!("scale departments {count}").as_bytes());
        }
    }

    fn meter(&mut self) {
        if self.random.chance(40) {
            self.meter = MeterKind::Digit;
            self.say(b"meter digit");
            return;
        }
        let most = self.random.choose(&[0, 1, 1, 2, 9, 1_000, 1_010]);
        let least = if most == 1 { 1 } else { 0 };
        let charges = [(); 12].map(|()| self.random.between(least, most));
        if let Ok(card) = Card::filled(&charges) {
            self.meter = MeterKind::Card(card);
        }
        let words: String = charges.iter().map(|charge| format!(" {charge}")).collect();
        self.say(format!("meter card{words}").as_bytes());
    }

    /// A book made for the scale and the meter that are chosen.
    fn book(&mut self) -> Vec<u8> {
        let random = &mut *self.random;
        match (&self.scale, &self.meter) {
            (ScaleKind::Ladder(ladder), MeterKind::Card(card)) => author::book(random, ladder, card),
            (ScaleKind::Ladder(ladder), MeterKind::Digit) => author::book(random, ladder, &Digit),
            (ScaleKind::Departments(departments), MeterKind::Card(card)) => author::book(random, departments, card),
            (ScaleKind::Departments(departments), MeterKind::Digit) => author::book(random, departments, &Digit),
        }
    }

    fn load(&mut self) {
        let book = self.book();
        let mut line = format!("load {}", hex(&book));
        if self.random.chance(20) {
            line = line.to_uppercase().replacen("LOAD", "load", 1);
        }
        self.say(line.as_bytes());
    }

    fn figure(&mut self) -> u32 {
        match self.random.below(40) {
            0 => self.random.bits() as u32,
            1 => self.random.between(30, 34),
            2..=5 => self.random.below(8),
            _ => self.random.below(3),
        }
    }

    /// The level of an observer, mostly one that the scale knows, and often the highest.
    fn level(&mut self) -> u16 {
        match self.random.below(40) {
            0 => self.random.bits() as u16,
            1 => self.random.below(512) as u16,
            2 => self.highest + 1,
            3..=22 => self.highest,
            _ => self.random.between(0, self.highest.into()) as u16,
        }
    }

    fn put(&mut self) {
        let line = format!("put {} {}", self.figure(), self.random.amount());
        self.say(line.as_bytes());
    }

    fn run(&mut self) {
        let event = match self.random.below(12) {
            0 => self.random.bits() as u32,
            1 => self.events.unwrap_or(0),
            _ => self.random.below(self.events.unwrap_or(0).max(1)),
        };
        self.say(format!("run {event}").as_bytes());
    }

    fn show(&mut self) {
        let line = format!("show {} {}", self.level(), self.figure());
        self.say(line.as_bytes());
    }

    fn clock(&mut self) {
        let line = format!("clock {}", self.level());
        self.say(line.as_bytes());
    }

    fn open(&mut self) {
        let line = format!("open {} {} {}", self.level(), self.figure(), self.figure());
        self.say(line.as_bytes());
    }

    /// Carries or withdraws the slip that was opened last, or one of which a number differs.
    fn end_slip(&mut self) {
        let word = self.random.choose(&["carry", "carry", "withdraw"]);
        let mut numbers: Vec<u64> = self.slip.split(' ').map(|number| number.parse().expect("a number")).collect();
        if self.random.chance(25) {
            let at = self.random.index(4);
            let most = if at == 0 { u64::from(u16::MAX) } else { u64::from(u32::MAX) };
            numbers[at] = match self.random.below(3) {
                0 => numbers[at].wrapping_sub(1).min(most),
                1 => (numbers[at] + 1).min(most),
                _ => self.random.bits() & most,
            };
        }
        let [holder, from, to, number] = numbers[..] else { return };
        self.say(format!("{word} {holder} {from} {to} {number}").as_bytes());
    }

    /// A line that is wrong in its form, or only looks so.
    fn malformed(&mut self) {
        let whole = self.random.choose(WELL_FORMED);
        let mut line = whole.as_bytes().to_vec();
        let at = self.random.index(line.len() + 1);
        match self.random.below(12) {
            0 => line.insert(at, b' '),
            1 => line.insert(at, self.random.choose(b"\t\r+-#_\0.x")),
            2 => line.insert(at, self.random.bits() as u8),
            3 => line.truncate(at),
            4 => line.extend_from_slice(b" 0"),
            5 => line.push(b'\r'),
            6 => line.make_ascii_uppercase(),
            7 => line = vec![b' '; at],
            8 => line = (0..at).map(|_| self.random.bits() as u8).collect(),
            9 => line = whole.replace(' ', " 00000000000000000000").into_bytes(),
            _ => line = self.random.choose(STRANGE).as_bytes().to_vec(),
        }
        line.retain(|&byte| byte != b'\n');
        self.say(&line);
    }
}

/// What malformed lines are made from. A scale and a meter that cannot be made stand for those that can,
/// so that engines are seldom replaced unawares.
const WELL_FORMED: &[&str] = &[
    "scale ladder 0",
    "scale departments 99",
    "meter card 1 1 1 1 1 1 1 1 1 1 1 1001",
    "load 000000000000",
    "put 0 -5",
    "put 1 2147483647",
    "run 0",
    "show 1 1",
    "clock 0",
    "open 1 1 0",
    "carry 1 1 0 1",
    "withdraw 1 1 0 1",
    "tally",
];

const STRANGE: &[&str] = &[
    "#",
    "# a remark",
    " # no remark",
    "load",
    "load ",
    "load -",
    "load - ",
    "load --",
    "load 0",
    "load 00000000000g",
    "load 0x00",
    "load 00 00",
    "load 000000000000 -",
    "put 0 -0",
    "put 0 -",
    "put 0 --1",
    "put 0 +1",
    "put 0 2147483648",
    "put 0 -2147483648",
    "put 0 -2147483649",
    "put -0 1",
    "put 4294967295 1",
    "put 4294967296 1",
    "put 18446744073709551616 1",
    "run -1",
    "run 4294967296",
    "run 0x0",
    "show 65535 0",
    "show 65536 0",
    "clock 65536",
    "clock -1",
    "open 65536 0 1",
    "open 1 0 4294967296",
    "carry 1 1 0 4294967296",
    "carry 1 1 0",
    "withdraw 1 1 0 1 1",
    "scale ladder",
    "scale ladder 4294967296",
    "scale ladder -1",
    "scale ladder x",
    "scale pair 2",
    "scale",
    "meter",
    "meter digit 1",
    "meter digit ",
    "meter digits",
    "meter card",
    "meter card 1 1 1 1 1 1 1 1 1 1 1",
    "meter card 1 1 1 1 1 1 1 1 1 1 1 1 1",
    "meter card 1 1 1 1 1 1 1 1 1 1 1 1001",
    "meter card 1001 1 1 1 1 1 1 1 1 1 1 x",
    "tally 1",
    "Tally",
    "tally\u{a0}",
    "tällý",
    "\u{feff}tally",
];
