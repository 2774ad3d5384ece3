//! The engine: it holds one checked book with its amounts and its clock, and answers nine calls.

use crate::book::{Book, FIGURES};
use crate::judge;
use crate::meter::Meter;
use crate::refusal::Refusal;
use crate::run::run_event;
use crate::scale::Scale;

/// How many openings of slips an engine accepts.
const OPENINGS: u32 = 65_535;
/// The place of the clock in refusals that otherwise name a figure.
const CLOCK: u32 = 32;

/// A one-time permission to declassify one figure into another.
#[derive(Clone, Copy, Debug, PartialEq, Eq)]
pub struct Slip {
    pub holder: u16,
    pub from: u32,
    pub to: u32,
    /// Which opening it comes from, counted from 1.
    pub number: u32,
}

/// How many slips were opened, carried and withdrawn.
#[derive(Clone, Copy, Debug, Default, PartialEq, Eq)]
pub struct Tally {
    pub openings: u32,
    pub carries: u32,
    pub withdrawals: u32,
}

/// The nine calls, apart from the types of scale and meter. A call that is refused changes nothing.
pub trait Calls {
    /// Loads a book and answers its number of events.
    fn load(&mut self, bytes: &[u8]) -> Result<u32, Refusal>;
    fn put(&mut self, figure: u32, amount: i32) -> Result<(), Refusal>;
    fn run(&mut self, event: u32) -> Result<(), Refusal>;
    /// The amount of a figure, for an observer of a level.
    fn show(&self, level: u16, figure: u32) -> Result<i32, Refusal>;
    /// The ticks so far, for an observer of a level.
    fn clock(&self, level: u16) -> Result<u64, Refusal>;
    fn open(&mut self, holder: u16, from: u32, to: u32) -> Result<Slip, Refusal>;
    fn carry(&mut self, slip: Slip) -> Result<(), Refusal>;
    fn withdraw(&mut self, slip: Slip) -> Result<(), Refusal>;
    fn tally(&self) -> Tally;
}

/// An engine under a scale and a meter.
pub struct Engine<S, M> {
    scale: S,
    meter: M,
    book: Option<Book>,
    amounts: [i32; FIGURES],
    clock: u64,
    /// The slip that is out: opened, and neither carried nor withdrawn yet.
    out: Option<Slip>,
    tally: Tally,
}

impl<S: Scale, M: Meter> Engine<S, M> {
    pub fn new(scale: S, meter: M) -> Engine<S, M> {
        Engine { scale, meter, book: None, amounts: [0; FIGURES], clock: 0, out: None, tally: Tally::default() }
    }

    fn book(&self) -> Result<&Book, Refusal> {
        self.book.as_ref().ok_or(Refusal::engine(12, 0))
    }

    fn know(&self, level: u16) -> Result<(), Refusal> {
        if self.scale.known(level) { Ok(()) } else { Err(Refusal::engine(14, u32::from(level))) }
    }

    /// Whether what has a level may be seen by an observer; a refusal names the place.
    fn allow(&self, level: u16, observer: u16, place: u32) -> Result<(), Refusal> {
        if self.scale.at_or_below(level, observer) { Ok(()) } else { Err(Refusal::engine(15, place)) }
    }

    /// Ends the slip that is out, if this is the one.
    fn spend(&mut self, slip: Slip) -> Result<(), Refusal> {
        if self.out != Some(slip) {
            return Err(Refusal::engine(17, 0));
        }
        self.out = None;
        Ok(())
    }
}

/// The index of the figure with a number that a caller gave.
fn figure_of(book: &Book, figure: u32) -> Result<usize, Refusal> {
    let index = figure as usize;
    if index < book.figures { Ok(index) } else { Err(Refusal::engine(13, figure)) }
}

impl<S: Scale, M: Meter> Calls for Engine<S, M> {
    fn load(&mut self, bytes: &[u8]) -> Result<u32, Refusal> {
        if self.out.is_some() {
            return Err(Refusal::engine(16, 0));
        }
        let book = self.book.insert(judge(bytes, &self.scale, &self.meter)?);
        self.amounts = book.starts;
        self.clock = 0;
        Ok(book.events())
    }

    fn put(&mut self, figure: u32, amount: i32) -> Result<(), Refusal> {
        let index = figure_of(self.book()?, figure)?;
        self.amounts[index] = amount;
        Ok(())
    }

    fn run(&mut self, event: u32) -> Result<(), Refusal> {
        let book = self.book.as_ref().ok_or(Refusal::engine(12, 0))?;
        let entries = &book.entries[..book.events];
        let entry = *entries.get(event as usize).ok_or(Refusal::engine(13, event))?;
        self.clock = run_event(book, entry, self.clock, &mut self.amounts, &self.meter);
        Ok(())
    }

    fn show(&self, level: u16, figure: u32) -> Result<i32, Refusal> {
        let book = self.book()?;
        self.know(level)?;
        let index = figure_of(book, figure)?;
        self.allow(book.levels[index], level, figure)?;
        Ok(self.amounts[index])
    }

    fn clock(&self, level: u16) -> Result<u64, Refusal> {
        let book = self.book()?;
        self.know(level)?;
        self.allow(book.clock_level, level, CLOCK)?;
        Ok(self.clock)
    }

    fn open(&mut self, holder: u16, from: u32, to: u32) -> Result<Slip, Refusal> {
        let book = self.book()?;
        self.know(holder)?;
        let first = figure_of(book, from)?;
        figure_of(book, to)?;
        if from == to {
            return Err(Refusal::engine(19, from));
        }
        self.allow(book.levels[first], holder, from)?;
        if self.out.is_some() {
            return Err(Refusal::engine(16, 0));
        }
        if self.tally.openings == OPENINGS {
            return Err(Refusal::engine(18, 0));
        }
        self.tally.openings += 1;
        let slip = Slip { holder, from, to, number: self.tally.openings };
        self.out = Some(slip);
        Ok(slip)
    }

    fn carry(&mut self, slip: Slip) -> Result<(), Refusal> {
        self.spend(slip)?;
        self.amounts[slip.to as usize] = self.amounts[slip.from as usize];
        self.tally.carries += 1;
        Ok(())
    }

    fn withdraw(&mut self, slip: Slip) -> Result<(), Refusal> {
        self.spend(slip)?;
        self.tally.withdrawals += 1;
        Ok(())
    }

    fn tally(&self) -> Tally {
        self.tally
    }
}
