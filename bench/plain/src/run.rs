//! Running one event of a checked book, on exact amounts and an exact clock.

use crate::book::{Book, DEPTH, FIGURES, HEIGHT, Instruction};
use crate::meter::Meter;

/// Where the clock stops.
const LAST_TICK: u64 = 1_000_000_000_000;

/// A stack of amounts. The reader has seen that heights stay in range; the remainders only spare the test of an index.
struct Stack {
    amounts: [i32; HEIGHT],
    height: usize,
}

impl Stack {
    #[inline(always)]
    fn push(&mut self, amount: i32) {
        self.amounts[self.height % HEIGHT] = amount;
        self.height += 1;
    }

    #[inline(always)]
    fn pop(&mut self) -> i32 {
        self.height -= 1;
        self.amounts[self.height % HEIGHT]
    }

    /// Pushes an amount, and answers the charge of the code that did.
    #[inline(always)]
    fn load<M: Meter>(&mut self, meter: &M, code: u8, amount: i32) -> u32 {
        self.push(amount);
        meter.charge(code, 0, 0)
    }

    /// Replaces the top two by what an operation makes of them, and answers the charge of its code.
    #[inline(always)]
    fn combine<M: Meter>(&mut self, meter: &M, code: u8, operation: impl Fn(i32, i32) -> i32) -> u32 {
        let second = self.pop();
        let first = self.pop();
        self.push(operation(first, second));
        meter.charge(code, first, second)
    }
}

/// The turns that are left of each open repeat, the present one included.
struct Turns {
    left: [u16; DEPTH],
    depth: usize,
}

impl Turns {
    #[inline(always)]
    fn begin(&mut self, count: u16) {
        self.left[self.depth % DEPTH] = count;
        self.depth += 1;
    }

    /// Ends a turn of the innermost repeat, and answers whether there is another.
    #[inline(always)]
    fn again(&mut self) -> bool {
        let left = &mut self.left[(self.depth - 1) % DEPTH];
        *left -= 1;
        if *left > 0 {
            return true;
        }
        self.depth -= 1;
        false
    }
}

/// A quotient without its fraction; 0 for the divisor 0, and the nearer end of the range where it does not fit.
#[inline]
fn quotient(first: i32, second: i32) -> i32 {
    if second == 0 { 0 } else { first.saturating_div(second) }
}

/// Runs the event that begins at a place and answers the clock afterwards.
///
/// Ticks are counted on beyond the clock's last one and cut when the run is over. That comes to the same,
/// since a reading is cut at a much smaller number before it is pushed.
pub fn run_event<M: Meter>(book: &Book, entry: u8, clock: u64, amounts: &mut [i32; FIGURES], meter: &M) -> u64 {
    let mut stack = Stack { amounts: [0; HEIGHT], height: 0 };
    let mut turns = Turns { left: [0; DEPTH], depth: 0 };
    let mut ticks = clock;
    let mut place = entry;
    loop {
        let instruction = book.code[usize::from(place)];
        place = place.wrapping_add(1);
        let charge = match instruction {
            Instruction::Number(number) => stack.load(meter, 1, number),
            Instruction::Figure(figure) => stack.load(meter, 2, amounts[usize::from(figure) % FIGURES]),
            Instruction::Clock => stack.load(meter, 3, i32::try_from(ticks).unwrap_or(i32::MAX)),
            Instruction::Add => stack.combine(meter, 4, i32::saturating_add),
            Instruction::Subtract => stack.combine(meter, 5, i32::saturating_sub),
            Instruction::Multiply => stack.combine(meter, 6, i32::saturating_mul),
            Instruction::Divide => stack.combine(meter, 7, quotient),
            Instruction::Less => stack.combine(meter, 8, |first, second| i32::from(first < second)),
            Instruction::Equal => stack.combine(meter, 9, |first, second| i32::from(first == second)),
            Instruction::Store(figure) => {
                let amount = stack.pop();
                amounts[usize::from(figure) % FIGURES] = amount;
                meter.charge(10, amount, 0)
            }
            Instruction::If { otherwise } => {
                let amount = stack.pop();
                if amount == 0 {
                    place = otherwise;
                }
                meter.charge(11, amount, 0)
            }
            Instruction::Repeat { count: 0, after } | Instruction::Else { after } => {
                place = after;
                0
            }
            Instruction::Repeat { count, .. } => {
                turns.begin(count);
                meter.charge(12, 0, 0)
            }
            Instruction::EndRepeat { inside } if turns.again() => {
                place = inside;
                meter.charge(12, 0, 0)
            }
            Instruction::EndRepeat { .. } | Instruction::EndIf => 0,
            Instruction::Wait(wait) => u32::from(wait),
            Instruction::Stop => return ticks.min(LAST_TICK),
        };
        ticks += u64::from(charge);
    }
}
