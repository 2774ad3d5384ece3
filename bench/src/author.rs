//! An author of random books. Most are well formed, and most of those keep the flow rules, because the author
//! chooses where to store by the levels and evens the parts of ifs by waits; some are written carelessly on purpose.

use plain::meter::Meter;
use plain::scale::Scale;

use crate::draft::{
    ADD, CLOCK, Draft, ELSE, END, EQUAL, FIGURE, Figure, IF, Instruction, NUMBER, REPEAT, STOP, STORE, WAIT, waits,
};
use crate::edges::edge_book;
use crate::random::Random;

/// Parts that differ by more are left uneven, as too many waits would be needed.
const MOST_PADDING: u64 = 8_000;

/// The bytes of a random book for a scale and a meter.
pub fn book<S: Scale, M: Meter>(random: &mut Random, scale: &S, meter: &M) -> Vec<u8> {
    match random.below(100) {
        0..=2 => (0..random.below(80)).map(|_| random.bits() as u8).collect(),
        3..=9 => edge_book(random).bytes(),
        kind => {
            let mut draft = Author::new(random, scale, meter).write();
            if kind < 20 {
                spoil_instruction(random, &mut draft);
            }
            let mut bytes = draft.bytes();
            if kind >= 92 {
                spoil_bytes(random, &mut bytes);
            }
            bytes
        }
    }
}

/// Changes, removes, doubles or exchanges an instruction.
fn spoil_instruction(random: &mut Random, draft: &mut Draft) {
    if draft.code.is_empty() {
        return;
    }
    let at = random.index(draft.code.len());
    let other = random.index(draft.code.len());
    match random.below(6) {
        0 => draft.code[at].0 = random.below(19) as u8,
        1 => draft.code[at].1 = random.choose(&[-1, 0, 1, 31, 32, 999, 1_000, 1_001, i32::MIN, i32::MAX]),
        2 => draft.code[at] = (random.between(1, 16) as u8, 0),
        3 => draft.code.swap(at, other),
        4 => drop(draft.code.remove(at)),
        _ => draft.code.insert(at, draft.code[other]),
    }
}

/// Changes a byte, or cuts or adds some at the end.
fn spoil_bytes(random: &mut Random, bytes: &mut Vec<u8>) {
    let at = random.index(bytes.len());
    match random.below(4) {
        0 => bytes[at] = random.bits() as u8,
        1 => bytes[at] ^= 1 << random.below(8),
        2 => bytes.truncate(at),
        _ => bytes.extend((0..random.between(1, 9)).map(|_| 0)),
    }
}

struct Author<'a, S, M> {
    random: &'a mut Random,
    scale: &'a S,
    meter: &'a M,
    draft: Draft,
    /// How often in a hundred a flow rule is kept on purpose.
    care: u32,
    /// How many instructions this event may still have, roughly.
    room: usize,
    /// How many turns the repeats around this place make together.
    turns: u32,
}

impl<'a, S: Scale, M: Meter> Author<'a, S, M> {
    fn new(random: &'a mut Random, scale: &'a S, meter: &'a M) -> Self {
        let care = random.choose(&[100, 100, 100, 98, 90, 50]);
        Author { random, scale, meter, draft: Draft::default(), care, room: 0, turns: 1 }
    }

    fn write(mut self) -> Draft {
        let unknown = self.random.chance(2);
        self.draft.clock_level = self.level(unknown);
        let figures = match self.random.below(20) {
            0 => 0,
            1 => 32,
            _ => self.random.between(1, 6),
        };
        for _ in 0..figures {
            let unknown = self.random.chance(20) && self.random.chance(3);
            let figure = Figure { level: self.level(unknown), start: self.random.amount() };
            self.draft.figures.push(figure);
        }
        let events = self.random.choose(&[0, 1, 1, 1, 1, 2, 2, 3, 4, 8]);
        for _ in 0..events {
            let left = 240_usize.saturating_sub(self.draft.code.len());
            self.room = self.random.choose(&[4, 10, 10, 25, 25, 60, 200]).min(left);
            self.part(self.scale.floor(), 0);
            self.draft.code.push((STOP, 0));
        }
        self.draft
    }

    /// A level that the scale knows, often the floor, or one that it does not.
    fn level(&mut self, unknown: bool) -> u16 {
        if self.random.chance(30) {
            return self.scale.floor();
        }
        for _ in 0..64 {
            let code = self.random.choose(&[1, 2, 3, 4, 8, 256, 65_536]);
            let code = self.random.below(code) as u16;
            if self.scale.known(code) != unknown {
                return code;
            }
        }
        self.scale.floor()
    }

    fn careful(&mut self) -> bool {
        self.random.chance(self.care)
    }

    fn emit(&mut self, code: u8, argument: i32) {
        self.draft.code.push((code, argument));
        self.room = self.room.saturating_sub(1);
    }

    fn charge(&self, code: u8) -> u64 {
        u64::from(self.meter.charge(code, 0, 0))
    }

    fn below(&self, level: u16, limits: &[u16]) -> bool {
        limits.iter().all(|&limit| self.scale.at_or_below(level, limit))
    }

    /// Writes some statements, and answers their toll.
    fn part(&mut self, context: u16, depth: u32) -> u64 {
        let mut toll = 0;
        let mut statements = self.random.between(0, 4);
        while self.room > 3 && (statements > 0 || depth == 0) {
            statements = statements.saturating_sub(1);
            toll += match self.random.below(20) {
                0..=3 => self.wait(),
                4..=6 if depth < 8 => self.repeat(context, depth),
                7..=11 if depth < 8 => self.test(context, depth),
                _ => self.store(context),
            };
        }
        toll
    }

    fn wait(&mut self) -> u64 {
        let most = self.random.choose(&[0, 3, 10, 1_000]);
        let ticks = self.random.between(0, most);
        self.emit(WAIT, ticks as i32);
        u64::from(ticks)
    }

    fn repeat(&mut self, context: u16, depth: u32) -> u64 {
        let most = self.random.choose(&[0, 2, 4, 4, 20, 1_000]);
        let heavy = self.random.chance(1);
        let limit = if heavy { 100_000 } else { 400 };
        let count = self.random.between(0, most).min(limit / self.turns);
        let outside = self.turns;
        self.turns *= count.max(1);
        self.emit(REPEAT, count as i32);
        let inside = self.part(context, depth + 1);
        self.emit(END, 0);
        self.turns = outside;
        u64::from(count) * (self.charge(REPEAT) + inside)
    }

    /// Writes an expression and a store into a figure that may take it.
    fn store(&mut self, context: u16) -> u64 {
        let careful = self.careful();
        let targets: Vec<usize> = (0..self.draft.figures.len())
            .filter(|&figure| !careful || self.scale.at_or_below(context, self.draft.figures[figure].level))
            .collect();
        if targets.is_empty() {
            return self.wait();
        }
        let target = self.random.choose(&targets);
        let limit = self.draft.figures[target].level;
        let limits: &[u16] = if careful { &[limit] } else { &[] };
        let size = self.random.choose(&[1, 1, 2, 3, 5, 9]);
        let (_, toll) = self.expression(context, limits, 0, size);
        self.emit(STORE, target as i32);
        toll + self.charge(STORE)
    }

    /// Writes an if, and evens its parts where the time could tell what was tested.
    fn test(&mut self, context: u16, depth: u32) -> u64 {
        let size = self.random.choose(&[1, 1, 2, 3]);
        let (level, tested) = self.expression(context, &[], 0, size);
        self.emit(IF, 0);
        let inside = self.scale.join(context, level);
        let first = self.part(inside, depth + 1);
        let middle = self.draft.code.len();
        let even = !self.scale.at_or_below(inside, self.draft.clock_level) && self.careful();
        let mut second = 0;
        if self.random.chance(70) || even && first > 0 {
            self.emit(ELSE, 0);
            second = self.part(inside, depth + 1);
        }
        let missing = if even { first.abs_diff(second) } else { 0 };
        let padding: Vec<Instruction> = waits(if missing < MOST_PADDING { missing } else { 0 }).collect();
        let ticks: u64 = padding.iter().map(|&(_, ticks)| ticks as u64).sum();
        let at = if first < second { middle } else { self.draft.code.len() };
        self.draft.code.splice(at..at, padding);
        self.emit(END, 0);
        let first = if first < second { first + ticks } else { first };
        tested + self.charge(IF) + first
    }

    /// Writes what pushes one amount whose level is within the limits, and answers the level and the toll.
    fn expression(&mut self, context: u16, limits: &[u16], height: u32, size: u32) -> (u16, u64) {
        if size <= 1 || height >= 7 {
            return self.leaf(limits);
        }
        let mut code = self.random.between(ADD.into(), EQUAL.into()) as u8;
        let clock_level = self.draft.clock_level;
        let mut limits = limits.to_vec();
        if !self.meter.steady(code) && self.careful() {
            if self.scale.at_or_below(context, clock_level) {
                limits.push(clock_level);
            } else {
                code = EQUAL;
            }
        }
        let left = self.random.between(1, size - 1);
        let (first, first_toll) = self.expression(context, &limits, height, left);
        let (second, second_toll) = self.expression(context, &limits, height + 1, size - left);
        self.emit(code, 0);
        (self.scale.join(first, second), first_toll + second_toll + self.charge(code))
    }

    fn leaf(&mut self, limits: &[u16]) -> (u16, u64) {
        let clock_level = self.draft.clock_level;
        let within: Vec<usize> = (0..self.draft.figures.len())
            .filter(|&figure| self.below(self.draft.figures[figure].level, limits))
            .collect();
        match self.random.below(10) {
            0 if self.below(clock_level, limits) => {
                self.emit(CLOCK, 0);
                (clock_level, self.charge(CLOCK))
            }
            1..=6 if !within.is_empty() => {
                let figure = self.random.choose(&within);
                self.emit(FIGURE, figure as i32);
                (self.draft.figures[figure].level, self.charge(FIGURE))
            }
            _ => {
                let amount = self.random.amount();
                self.emit(NUMBER, amount);
                (self.scale.floor(), self.charge(NUMBER))
            }
        }
    }
}
