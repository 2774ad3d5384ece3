//! Books that were read: the instructions with their jumps, and the limits of the format.

pub const FIGURES: usize = 32;
pub const INSTRUCTIONS: usize = 256;
/// How many amounts a stack holds at most.
pub const HEIGHT: usize = 8;
/// How many ifs and repeats are open together at most.
pub const DEPTH: usize = 8;
/// The longest wait, and the highest count of a repeat.
pub const LONGEST: i32 = 1_000;
/// The most that the weights of an event may add up to.
pub const WEIGHT: u32 = 100_000;

/// One instruction. Jumps lead to a place, which a byte can hold because the last place is that of a stop.
#[derive(Clone, Copy, Debug, PartialEq, Eq)]
pub enum Instruction {
    Number(i32),
    Figure(u8),
    Clock,
    Add,
    Subtract,
    Multiply,
    Divide,
    Less,
    Equal,
    Store(u8),
    /// Goes on at `otherwise` if the amount tested is 0.
    If {
        otherwise: u8,
    },
    /// Goes on at `after` if the count is 0.
    Repeat {
        count: u16,
        after: u8,
    },
    Wait(u16),
    /// Reached at the end of a first part, and goes on at `after`.
    Else {
        after: u8,
    },
    EndIf,
    /// Goes back to `inside` while turns are left.
    EndRepeat {
        inside: u8,
    },
    Stop,
}

impl Instruction {
    /// The code of the instruction in the bytes of a book, by which meters know it.
    #[inline]
    pub fn code(self) -> u8 {
        match self {
            Instruction::Number(_) => 1,
            Instruction::Figure(_) => 2,
            Instruction::Clock => 3,
            Instruction::Add => 4,
            Instruction::Subtract => 5,
            Instruction::Multiply => 6,
            Instruction::Divide => 7,
            Instruction::Less => 8,
            Instruction::Equal => 9,
            Instruction::Store(_) => 10,
            Instruction::If { .. } => 11,
            Instruction::Repeat { .. } => 12,
            Instruction::Wait(_) => 13,
            Instruction::Else { .. } => 14,
            Instruction::EndIf | Instruction::EndRepeat { .. } => 15,
            Instruction::Stop => 16,
        }
    }
}

/// A book whose bytes, stacks, nesting and weights are in order. Arrays have the largest sizes, so that nothing allocates.
#[derive(Clone)]
pub struct Book {
    pub(crate) clock_level: u16,
    pub(crate) figures: usize,
    pub(crate) levels: [u16; FIGURES],
    pub(crate) starts: [i32; FIGURES],
    pub(crate) instructions: usize,
    pub(crate) code: [Instruction; INSTRUCTIONS],
    pub(crate) events: usize,
    /// The place of the first instruction of each event.
    pub(crate) entries: [u8; INSTRUCTIONS],
}

impl Book {
    /// How many events the book has.
    pub fn events(&self) -> u32 {
        self.events as u32
    }

    /// The levels of the figures in use.
    pub fn levels(&self) -> &[u16] {
        &self.levels[..self.figures]
    }

    /// The instructions in use.
    pub fn code(&self) -> &[Instruction] {
        &self.code[..self.instructions]
    }
}
