//! The check: whether the amounts and the time of a book that was read keep to their levels.
//! It runs nothing.

use crate::book::{Book, DEPTH, HEIGHT, INSTRUCTIONS, Instruction};
use crate::meter::Meter;
use crate::refusal::Refusal;
use crate::scale::Scale;

/// Checks a book, or answers its first fault.
pub fn check<S: Scale, M: Meter>(book: &Book, scale: &S, meter: &M) -> Result<(), Refusal> {
    let levels = std::iter::once(&book.clock_level).chain(book.levels());
    if let Some(place) = levels.into_iter().position(|&level| !scale.known(level)) {
        return Err(Refusal::check(7, place));
    }
    let uneven = uneven_ifs(book, meter);
    let mut walk = Walk::new(book, scale, meter);
    for (place, &instruction) in book.code().iter().enumerate() {
        walk.step(instruction, uneven[place]).map_err(|number| Refusal::check(number, place))?;
    }
    Ok(())
}

/// An if or a repeat whose toll is being added up.
#[derive(Clone, Copy, Default)]
struct Open {
    place: usize,
    /// The toll of what stands before the block, in the block around it.
    before: u64,
    /// The toll of the first part, once its else has come.
    first: Option<u64>,
}

/// Which places hold an if whose two parts differ in their tolls, their static costs.
/// The tolls of all blocks are found in one pass. They fit, as a toll is at most 100,000,000 in a book that was read.
fn uneven_ifs<M: Meter>(book: &Book, meter: &M) -> [bool; INSTRUCTIONS] {
    let mut uneven = [false; INSTRUCTIONS];
    let mut open = [Open::default(); DEPTH + 1];
    let mut depth = 0;
    let mut toll = 0;
    for (place, &instruction) in book.code().iter().enumerate() {
        match instruction {
            Instruction::Wait(ticks) => toll += u64::from(ticks),
            Instruction::If { .. } | Instruction::Repeat { .. } => {
                depth += 1;
                open[depth] = Open { place, before: toll, first: None };
                toll = 0;
            }
            Instruction::Else { .. } => {
                open[depth].first = Some(toll);
                toll = 0;
            }
            Instruction::EndIf => {
                let Open { place, before, first } = open[depth];
                let (first, second) = first.map_or((toll, 0), |first| (first, toll));
                uneven[place] = first != second;
                toll = before + u64::from(meter.charge(11, 0, 0)) + first;
                depth -= 1;
            }
            Instruction::EndRepeat { inside } => {
                let turn = toll + u64::from(meter.charge(12, 0, 0));
                toll = open[depth].before + turns(book, inside) * turn;
                depth -= 1;
            }
            other => toll += u64::from(meter.charge(other.code(), 0, 0)),
        }
    }
    uneven
}

/// The count of the repeat whose inside begins at a place.
fn turns(book: &Book, inside: u8) -> u64 {
    match book.code[usize::from(inside) - 1] {
        Instruction::Repeat { count, .. } => u64::from(count),
        _ => 0,
    }
}

/// The levels at some place of a book.
struct Walk<'a, S, M> {
    book: &'a Book,
    scale: &'a S,
    meter: &'a M,
    /// The program counter's level: what is told by reaching this place.
    context: u16,
    /// The contexts outside of the open ifs.
    outside: [u16; DEPTH],
    depth: usize,
    /// The levels of the amounts on the stack.
    levels: [u16; HEIGHT],
    height: usize,
}

impl<'a, S: Scale, M: Meter> Walk<'a, S, M> {
    fn new(book: &'a Book, scale: &'a S, meter: &'a M) -> Self {
        let context = scale.floor();
        Walk { book, scale, meter, context, outside: [0; DEPTH], depth: 0, levels: [0; HEIGHT], height: 0 }
    }

    /// Goes past an instruction, or answers the number of its fault.
    fn step(&mut self, instruction: Instruction, uneven: bool) -> Result<(), u8> {
        let operands = self.take_operands(instruction);
        if !self.meter.steady(instruction.code()) {
            self.within(self.scale.join(self.context, operands), self.book.clock_level).ok_or(8)?;
        }
        match instruction {
            Instruction::Number(_) => self.push(self.scale.floor()),
            Instruction::Figure(figure) => self.push(self.level(figure)),
            Instruction::Clock => self.push(self.book.clock_level),
            Instruction::Store(figure) => {
                self.within(operands, self.level(figure)).ok_or(9)?;
                self.within(self.context, self.level(figure)).ok_or(10)?;
            }
            Instruction::If { .. } => {
                self.outside[self.depth] = self.context;
                self.depth += 1;
                self.context = self.scale.join(self.context, operands);
                if uneven {
                    self.within(self.context, self.book.clock_level).ok_or(11)?;
                }
            }
            Instruction::EndIf => {
                self.depth -= 1;
                self.context = self.outside[self.depth];
            }
            _ if (4..=9).contains(&instruction.code()) => self.push(operands),
            _ => {}
        }
        Ok(())
    }

    /// Takes the operands of an instruction off the stack and answers the join of their levels.
    fn take_operands(&mut self, instruction: Instruction) -> u16 {
        match instruction.code() {
            4..=9 => {
                let second = self.pop();
                let first = self.pop();
                self.scale.join(first, second)
            }
            10 | 11 => self.pop(),
            _ => self.scale.floor(),
        }
    }

    fn within(&self, low: u16, high: u16) -> Option<()> {
        self.scale.at_or_below(low, high).then_some(())
    }

    fn level(&self, figure: u8) -> u16 {
        self.book.levels[usize::from(figure)]
    }

    fn push(&mut self, level: u16) {
        self.levels[self.height] = level;
        self.height += 1;
    }

    fn pop(&mut self) -> u16 {
        self.height -= 1;
        self.levels[self.height]
    }
}
