//! Scales of levels: join-semilattices of security levels with a least element.

use crate::refusal::Refusal;

/// The four questions that a scale answers about level codes.
///
/// Among known codes "at or below" is a partial order with joins and the floor as its least element.
/// A code that is not known is neither above nor below any code, and a join with one is the floor.
pub trait Scale {
    fn known(&self, code: u16) -> bool;
    fn at_or_below(&self, low: u16, high: u16) -> bool;
    fn join(&self, one: u16, other: u16) -> u16;
    fn floor(&self) -> u16;
}

/// Ranks in a row, the codes 0 up to the number of ranks, ordered as numbers.
#[derive(Clone, Copy, Debug)]
pub struct Ladder {
    ranks: u16,
}

impl Ladder {
    /// The ladder that books are checked under where no other is chosen.
    pub const TWO: Ladder = Ladder { ranks: 2 };

    pub fn new(ranks: u32) -> Result<Ladder, Refusal> {
        match ranks {
            1..=256 => Ok(Ladder { ranks: ranks as u16 }),
            _ => Err(Refusal::MAKER),
        }
    }
}

impl Scale for Ladder {
    fn known(&self, code: u16) -> bool {
        code < self.ranks
    }

    fn at_or_below(&self, low: u16, high: u16) -> bool {
        low <= high && self.known(high)
    }

    fn join(&self, one: u16, other: u16) -> u16 {
        let larger = one.max(other);
        if self.known(larger) { larger } else { self.floor() }
    }

    fn floor(&self) -> u16 {
        0
    }
}

/// Sets of departments, one bit of the code for each, ordered by inclusion.
#[derive(Clone, Copy, Debug)]
pub struct Departments {
    /// The set of all departments.
    all: u16,
}

impl Departments {
    pub fn new(departments: u32) -> Result<Departments, Refusal> {
        match departments {
            0..=8 => Ok(Departments { all: (1 << departments) - 1 }),
            _ => Err(Refusal::MAKER),
        }
    }
}

impl Scale for Departments {
    fn known(&self, code: u16) -> bool {
        code <= self.all
    }

    fn at_or_below(&self, low: u16, high: u16) -> bool {
        low & !high == 0 && self.known(high)
    }

    fn join(&self, one: u16, other: u16) -> u16 {
        let both = one | other;
        if self.known(both) { both } else { self.floor() }
    }

    fn floor(&self) -> u16 {
        0
    }
}
