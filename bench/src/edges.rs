//! Books at the limits of the format, on the last number that passes or on the first that does not.

use crate::draft::{ADD, Draft, ELSE, END, FIGURE, Figure, IF, Instruction, NUMBER, REPEAT, STOP, STORE, WAIT};
use crate::random::Random;

/// A book at one of the limits, mostly of two figures with the levels 0 and 1.
pub fn edge_book(random: &mut Random) -> Draft {
    let mut draft = Draft {
        clock_level: random.below(2) as u16,
        figures: vec![Figure { level: 0, start: random.amount() }, Figure { level: 1, start: random.amount() }],
        code: Vec::new(),
    };
    match random.below(6) {
        0 => draft.code = weights(random),
        1 => draft.code = blocks(random),
        2 => draft.code = heights(random),
        3 => draft.code = lengths(random),
        4 => draft.figures = vec![Figure { level: 1, start: -1 }; random.between(31, 33) as usize],
        _ => draft.code = arguments(random),
    }
    if draft.code.last().is_none_or(|&(code, _)| code != STOP) && random.chance(90) {
        draft.code.push((STOP, 0));
    }
    draft
}

/// An event whose weights add up to about 100,000, and others around it or none, which may be too heavy.
fn weights(random: &mut Random) -> Vec<Instruction> {
    let mut code = other_event(random);
    // 1 for the repeat and 1,000 for each of 98 inside and for the end, so 99,001.
    code.push((REPEAT, 1_000));
    code.extend([(WAIT, 0); 98]);
    code.push((END, 0));
    // 1 for the repeat and 497 for each of 1 inside and for the end, so 995. With the stop that is 99,997.
    code.extend([(REPEAT, 497), (WAIT, 1), (END, 0)]);
    let more = random.between(2, 5);
    code.extend((0..more).map(|_| (WAIT, 0)));
    code.push((STOP, 0));
    code.extend(other_event(random));
    code
}

/// No event, a light one, or one that weighs 1 + 1,000 + 1,000·m + 1,000 + 1: enough for m = 97, too much for m = 98.
fn other_event(random: &mut Random) -> Vec<Instruction> {
    let count = random.between(97, 98) as i32;
    match random.below(3) {
        0 => vec![(WAIT, 5), (STOP, 0)],
        1 => vec![(REPEAT, 1_000), (REPEAT, count), (END, 0), (END, 0), (STOP, 0)],
        _ => Vec::new(),
    }
}

/// Seven to nine open ifs and repeats.
fn blocks(random: &mut Random) -> Vec<Instruction> {
    let depth = random.between(7, 9);
    let mut code = Vec::new();
    let mut ends = Vec::new();
    for _ in 0..depth {
        match random.below(3) {
            0 => code.push((REPEAT, random.between(0, 2) as i32)),
            1 => code.extend([(FIGURE, random.below(2) as i32), (IF, 0)]),
            _ => code.extend([(NUMBER, random.below(2) as i32), (IF, 0), (ELSE, 0)]),
        }
        ends.push((END, 0));
    }
    code.push((WAIT, random.below(2) as i32));
    ends.extend((random.chance(10)).then_some((END, 0)));
    code.extend(ends);
    code
}

/// Seven to nine amounts on the stack.
fn heights(random: &mut Random) -> Vec<Instruction> {
    let height = random.between(7, 9) as usize;
    let mut code = vec![(NUMBER, random.amount()); height];
    code.extend(vec![(ADD, 0); height - random.between(0, 2) as usize]);
    code.push((STORE, random.below(2) as i32));
    code
}

/// About 256 instructions, sometimes all of them events.
fn lengths(random: &mut Random) -> Vec<Instruction> {
    let filler = random.choose(&[(WAIT, 1), (STOP, 0)]);
    vec![filler; random.between(254, 257) as usize]
}

/// One instruction with an argument at or beyond its limits.
fn arguments(random: &mut Random) -> Vec<Instruction> {
    let argument = random.choose(&[-1, 0, 1, 2, 1_000, 1_001, i32::MIN, i32::MAX]);
    match random.below(6) {
        0 => vec![(REPEAT, argument), (END, 0)],
        1 => vec![(WAIT, argument)],
        2 => vec![(FIGURE, argument), (STORE, 1)],
        3 => vec![(NUMBER, 1), (STORE, argument)],
        4 => vec![(NUMBER, 1), (IF, argument), (END, 0)],
        _ => vec![(random.bits() as u8, argument)],
    }
}
