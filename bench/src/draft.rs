//! Drafts of books: figures and instructions as lists, which may break any rule, and the bytes that they become.

pub const NUMBER: u8 = 1;
pub const FIGURE: u8 = 2;
pub const CLOCK: u8 = 3;
pub const ADD: u8 = 4;
pub const MULTIPLY: u8 = 6;
pub const DIVIDE: u8 = 7;
pub const EQUAL: u8 = 9;
pub const STORE: u8 = 10;
pub const IF: u8 = 11;
pub const REPEAT: u8 = 12;
pub const WAIT: u8 = 13;
pub const ELSE: u8 = 14;
pub const END: u8 = 15;
pub const STOP: u8 = 16;

/// The longest wait, and the highest count of a repeat.
pub const LONGEST: u64 = 1_000;

#[derive(Clone, Copy, Debug)]
pub struct Figure {
    pub level: u16,
    pub start: i32,
}

/// A code with its argument.
pub type Instruction = (u8, i32);

#[derive(Clone, Debug, Default)]
pub struct Draft {
    pub clock_level: u16,
    pub figures: Vec<Figure>,
    pub code: Vec<Instruction>,
}

impl Draft {
    pub fn bytes(&self) -> Vec<u8> {
        let mut bytes = Vec::with_capacity(6 + 6 * self.figures.len() + 5 * self.code.len());
        bytes.extend((self.figures.len() as u16).to_be_bytes());
        bytes.extend((self.code.len() as u16).to_be_bytes());
        bytes.extend(self.clock_level.to_be_bytes());
        bytes.extend(self.figures.iter().flat_map(|figure| figure.level.to_be_bytes()));
        bytes.extend(self.figures.iter().flat_map(|figure| figure.start.to_be_bytes()));
        bytes.extend(self.code.iter().map(|&(code, _)| code));
        bytes.extend(self.code.iter().flat_map(|&(_, argument)| argument.to_be_bytes()));
        bytes
    }
}

/// Waits that take that many ticks together.
pub fn waits(ticks: u64) -> impl Iterator<Item = Instruction> {
    let whole = (ticks / LONGEST) as usize;
    let rest = (ticks % LONGEST) as i32;
    std::iter::repeat_n((WAIT, LONGEST as i32), whole).chain((rest > 0).then_some((WAIT, rest)))
}

/// Bytes as hexadecimal digits.
pub fn hex(bytes: &[u8]) -> String {
    bytes.iter().map(|byte| format!("{byte:02x}")).collect()
}
