//! Books of fixed shapes for measurements: large ones to check and load, heavy ones to run.

use crate::draft::{
    ADD, Draft, ELSE, END, EQUAL, FIGURE, Figure, IF, Instruction, MULTIPLY, NUMBER, REPEAT, STOP, STORE, WAIT, waits,
};

/// The most instructions that a book can have.
pub const LARGEST: usize = 256;

/// 32 figures, the even ones public and the odd ones private, or all public.
fn figures(private: bool) -> Vec<Figure> {
    (0..32).map(|figure| Figure { level: u16::from(private && figure % 2 == 1), start: 7 * figure - 100 }).collect()
}

/// A book with a public clock whose one event is filled up with waits.
fn book(mut code: Vec<Instruction>, instructions: usize) -> Draft {
    code.resize(instructions - 1, (WAIT, 1));
    code.push((STOP, 0));
    Draft { clock_level: 0, figures: figures(true), code }
}

/// One sum after the other, from public and private figures into private ones.
pub fn straight(instructions: usize) -> Draft {
    let sums = (0..).map(|turn: i32| [(FIGURE, turn % 32), (NUMBER, turn), (ADD, 0), (STORE, (2 * turn + 1) % 32)]);
    book(sums.take((instructions - 1) / 4).flatten().collect(), instructions)
}

/// A stretch of instructions and its toll on a card of ones.
#[derive(Clone)]
struct Stretch {
    code: Vec<Instruction>,
    toll: u64,
}

impl Stretch {
    /// A number that is stored in a private figure.
    fn store() -> Stretch {
        Stretch { code: vec![(NUMBER, 5), (STORE, 1)], toll: 2 }
    }

    /// The first part of an if on a private figure, with a second part that takes as long.
    fn tested(self) -> Stretch {
        let mut code = vec![(FIGURE, 3), (IF, 0)];
        code.extend(self.code);
        code.push((ELSE, 0));
        code.extend(waits(self.toll));
        code.push((END, 0));
        Stretch { code, toll: 2 + self.toll }
    }

    fn twice(self) -> Stretch {
        let mut code = vec![(REPEAT, 2)];
        code.extend(self.code);
        code.push((END, 0));
        Stretch { code, toll: 2 * (1 + self.toll) }
    }

    /// As many of these in a row as have room.
    fn fill(self, room: usize) -> Stretch {
        let count = room / self.code.len();
        Stretch { code: self.code.repeat(count), toll: self.toll * count as u64 }
    }
}

/// Nests of ifs and repeats, eight deep, one behind the other.
pub fn nested(instructions: usize) -> Draft {
    let nest = (0..4).fold(Stretch::store(), |inside, _| inside.tested().twice());
    book(nest.fill(instructions - 1).code, instructions)
}

/// Six ifs and repeats around all the rest, which is made of ifs in repeats.
pub fn deep(instructions: usize) -> Draft {
    let inside = Stretch::store().tested().twice().fill(instructions - 40);
    let around = inside.tested().tested().twice().tested().twice().tested();
    book(around.code, instructions)
}

/// A heavy book and how many instructions a run of it performs.
pub struct Heavy {
    pub draft: Draft,
    pub performed: u64,
}

impl Heavy {
    /// A repeat of 24 times four instructions and two waits: 99 instructions each turn with the end, and the repeat and the stop.
    fn turns(count: u64, four: impl Fn(i32) -> [Instruction; 4]) -> Heavy {
        let mut code = vec![(REPEAT, count as i32)];
        code.extend((0..24).flat_map(four));
        code.extend([(WAIT, 0), (WAIT, 1), (END, 0), (STOP, 0)]);
        Heavy { draft: Draft { clock_level: 0, figures: figures(false), code }, performed: 99 * count + 2 }
    }
}

/// Arithmetic of all kinds.
pub fn arithmetic(count: u64) -> Heavy {
    Heavy::turns(count, |turn| {
        let code = ADD + (turn % 6) as u8;
        [(FIGURE, turn % 32), (FIGURE, (turn * 5 + 1) % 32), (code, 0), (STORE, (turn * 3 + 2) % 32)]
    })
}

/// Multiplications and divisions alone, whose time under the digit meter hangs on the amounts.
pub fn products(count: u64) -> Heavy {
    Heavy::turns(count, |turn| {
        let code = MULTIPLY + (turn % 2) as u8;
        [(FIGURE, turn % 32), (NUMBER, 3 + turn), (code, 0), (STORE, turn % 32)]
    })
}

/// A repeat inside a repeat with next to nothing in it: 1,000 · (2 · 48 + 2) + 2 instructions.
pub fn loops() -> Heavy {
    let code = vec![(REPEAT, 1_000), (REPEAT, 48), (WAIT, 0), (END, 0), (END, 0), (STOP, 0)];
    Heavy { draft: Draft { clock_level: 0, figures: figures(false), code }, performed: 98_002 }
}

/// Ifs that go one way and the other by turns. Of the twelve instructions that set, test and branch, nine are performed.
pub fn branches() -> Heavy {
    let mut code = vec![(REPEAT, 1_000)];
    for _ in 0..7 {
        code.extend([(FIGURE, 0), (NUMBER, 0), (EQUAL, 0), (STORE, 0), (FIGURE, 0), (IF, 0)]);
        code.extend([(NUMBER, 3), (STORE, 1), (ELSE, 0), (NUMBER, 4), (STORE, 2), (END, 0)]);
    }
    code.extend([(END, 0), (STOP, 0)]);
    Heavy { draft: Draft { clock_level: 0, figures: figures(false), code }, performed: 1_000 * (7 * 9 + 1) + 2 }
}
