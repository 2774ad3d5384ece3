//! The reader: from bytes to a book, or the first fault in its bytes, arguments, stacks, nesting and weights.
//! It knows nothing of levels and charges.

use crate::book::{Book, DEPTH, FIGURES, HEIGHT, INSTRUCTIONS, Instruction, LONGEST, WEIGHT};
use crate::refusal::Refusal;

/// Reads a book.
pub fn read(bytes: &[u8]) -> Result<Book, Refusal> {
    let (figures, instructions) = sizes(bytes)?;
    let (levels, rest) = bytes[6..].split_at(2 * figures);
    let (starts, rest) = rest.split_at(4 * figures);
    let (codes, arguments) = rest.split_at(instructions);

    let mut reader = Reader::new(figures, instructions, word(bytes, 4));
    for (own, level) in reader.book.levels.iter_mut().zip(levels.as_chunks().0) {
        *own = u16::from_be_bytes(*level);
    }
    for (own, start) in reader.book.starts.iter_mut().zip(starts.as_chunks().0) {
        *own = i32::from_be_bytes(*start);
    }
    for (place, (&code, argument)) in codes.iter().zip(arguments.as_chunks().0).enumerate() {
        reader.take(place, code, i32::from_be_bytes(*argument)).map_err(|number| Refusal::reader(number, place))?;
    }
    reader.finish()
}

/// The numbers of figures and instructions, if they are in their limits and the length fits them.
fn sizes(bytes: &[u8]) -> Result<(usize, usize), Refusal> {
    if bytes.len() < 6 {
        return Err(Refusal::reader(1, 0));
    }
    let figures = usize::from(word(bytes, 0));
    let instructions = usize::from(word(bytes, 2));
    if figures > FIGURES {
        return Err(Refusal::reader(2, 0));
    }
    if instructions > INSTRUCTIONS {
        return Err(Refusal::reader(2, 2));
    }
    if bytes.len() != 6 + 6 * figures + 5 * instructions {
        return Err(Refusal::reader(1, 0));
    }
    Ok((figures, instructions))
}

fn word(bytes: &[u8], at: usize) -> u16 {
    u16::from_be_bytes([bytes[at], bytes[at + 1]])
}

#[derive(Clone, Copy, PartialEq)]
enum Kind {
    /// An if whose else has not come.
    If,
    /// An if whose else has come.
    Else,
    Repeat,
}

/// An if or a repeat that is open.
#[derive(Clone, Copy)]
struct Block {
    kind: Kind,
    /// The place of its last jump, which its end has to fill in.
    jump: u8,
    /// The weight of an instruction outside.
    outside: u32,
}

/// A book that is being read, up to some place.
struct Reader {
    book: Book,
    height: usize,
    open: [Block; DEPTH],
    depth: usize,
    /// The weight of an instruction at this place, not above one more than the limit.
    weight: u32,
    /// The sum of the weights of this event so far.
    load: u32,
    /// The first instruction of this event.
    entry: usize,
    /// The first instruction of the first event that is too heavy.
    heavy: Option<usize>,
}

impl Reader {
    fn new(figures: usize, instructions: usize, clock_level: u16) -> Reader {
        Reader {
            book: Book {
                clock_level,
                figures,
                levels: [0; FIGURES],
                starts: [0; FIGURES],
                instructions,
                code: [Instruction::Stop; INSTRUCTIONS],
                events: 0,
                entries: [0; INSTRUCTIONS],
            },
            height: 0,
            open: [Block { kind: Kind::If, jump: 0, outside: 1 }; DEPTH],
            depth: 0,
            weight: 1,
            load: 0,
            entry: 0,
            heavy: None,
        }
    }

    /// Takes the instruction at a place, or answers the number of its fault.
    fn take(&mut self, place: usize, code: u8, argument: i32) -> Result<(), u8> {
        let instruction = decode(code, argument, self.book.figures).ok_or(3)?;
        self.height = height_after(code, self.height).ok_or(4)?;
        self.load += self.weight;
        self.book.code[place] = instruction;
        match instruction {
            Instruction::If { .. } => self.opens(Kind::If, place, 1),
            Instruction::Repeat { count, .. } => self.opens(Kind::Repeat, place, count),
            Instruction::Else { .. } => self.parts(place),
            Instruction::EndIf => self.closes(place),
            Instruction::Stop => self.stops(place),
            _ => Ok(()),
        }
    }

    fn opens(&mut self, kind: Kind, place: usize, count: u16) -> Result<(), u8> {
        let slot = self.open.get_mut(self.depth).ok_or(5)?;
        *slot = Block { kind, jump: place as u8, outside: self.weight };
        self.depth += 1;
        self.weight = (self.weight * u32::from(count.max(1))).min(WEIGHT + 1);
        Ok(())
    }

    /// An else: the if jumps behind it.
    fn parts(&mut self, place: usize) -> Result<(), u8> {
        let block = self.open[..self.depth].last_mut().ok_or(5)?;
        if block.kind != Kind::If {
            return Err(5);
        }
        self.book.code[usize::from(block.jump)] = Instruction::If { otherwise: behind(place) };
        block.kind = Kind::Else;
        block.jump = place as u8;
        Ok(())
    }

    /// An end: the open jump of its block leads behind it.
    fn closes(&mut self, place: usize) -> Result<(), u8> {
        let block = *self.open[..self.depth].last().ok_or(5)?;
        let after = behind(place);
        let jump = &mut self.book.code[usize::from(block.jump)];
        *jump = match (block.kind, *jump) {
            (Kind::If, _) => Instruction::If { otherwise: after },
            (Kind::Repeat, Instruction::Repeat { count, .. }) => Instruction::Repeat { count, after },
            _ => Instruction::Else { after },
        };
        if block.kind == Kind::Repeat {
            self.book.code[place] = Instruction::EndRepeat { inside: block.jump + 1 };
        }
        self.weight = block.outside;
        self.depth -= 1;
        Ok(())
    }

    fn stops(&mut self, place: usize) -> Result<(), u8> {
        if self.depth > 0 {
            return Err(5);
        }
        if self.load > WEIGHT {
            self.heavy.get_or_insert(self.entry);
        }
        self.book.entries[self.book.events] = self.entry as u8;
        self.book.events += 1;
        self.entry = place + 1;
        self.load = 0;
        Ok(())
    }

    fn finish(self) -> Result<Book, Refusal> {
        if self.entry != self.book.instructions {
            return Err(Refusal::reader(5, self.book.instructions));
        }
        match self.heavy {
            Some(entry) => Err(Refusal::reader(6, entry)),
            None => Ok(self.book),
        }
    }
}

/// The instruction with a code and an argument, its jumps still to be filled in, or none if there is no such instruction.
fn decode(code: u8, argument: i32, figures: usize) -> Option<Instruction> {
    let figure = || u8::try_from(argument).ok().filter(|&figure| usize::from(figure) < figures);
    let short = || (0..=LONGEST).contains(&argument).then_some(argument as u16);
    Some(match (code, argument) {
        (1, _) => Instruction::Number(argument),
        (2, _) => Instruction::Figure(figure()?),
        (10, _) => Instruction::Store(figure()?),
        (12, _) => Instruction::Repeat { count: short()?, after: 0 },
        (13, _) => Instruction::Wait(short()?),
        (3, 0) => Instruction::Clock,
        (4, 0) => Instruction::Add,
        (5, 0) => Instruction::Subtract,
        (6, 0) => Instruction::Multiply,
        (7, 0) => Instruction::Divide,
        (8, 0) => Instruction::Less,
        (9, 0) => Instruction::Equal,
        (11, 0) => Instruction::If { otherwise: 0 },
        (14, 0) => Instruction::Else { after: 0 },
        (15, 0) => Instruction::EndIf,
        (16, 0) => Instruction::Stop,
        _ => return None,
    })
}

/// The place behind another. It wraps at the last place of all, where only a stop can stand in a book that is accepted.
fn behind(place: usize) -> u8 {
    (place as u8).wrapping_add(1)
}

/// The height of the stack after a code, or none if the code may not stand at this height.
fn height_after(code: u8, height: usize) -> Option<usize> {
    match code {
        1..=3 => (height < HEIGHT).then_some(height + 1),
        4..=9 => (height >= 2).then(|| height - 1),
        10 | 11 => (height == 1).then_some(0),
        _ => (height == 0).then_some(0),
    }
}
