//! Long scripts that reach the limits which random ones do not: the last opening of a slip, and the last tick.

use crate::draft::{Draft, END, Figure, Instruction, REPEAT, STOP, WAIT, hex};

/// The limits are reached and passed by some calls.
pub fn long_scripts() -> Vec<Vec<u8>> {
    vec![openings(), ticks()]
}

fn load(code: Vec<Instruction>) -> String {
    let figures = vec![Figure { level: 0, start: 1 }, Figure { level: 1, start: 2 }];
    format!("load {}\n", hex(&Draft { clock_level: 0, figures, code }.bytes()))
}

/// 65,535 openings and three more, every third slip being withdrawn.
fn openings() -> Vec<u8> {
    let mut script = load(vec![(STOP, 0)]);
    for number in 1..=65_538 {
        let word = if number % 3 == 0 { "withdraw" } else { "carry" };
        script.push_str(&format!("open 1 1 0\n{word} 1 1 0 {number}\n"));
    }
    script.push_str("tally\nshow 0 0\n");
    script.into_bytes()
}

/// Runs of 98,001,000 ticks until the clock stands, and three more.
fn ticks() -> Vec<u8> {
    let mut code = vec![(REPEAT, 1_000)];
    code.extend([(WAIT, 1_000); 98]);
    code.extend([(END, 0), (STOP, 0)]);
    let mut script = load(code);
    for _ in 0..10_204 {
        script.push_str("run 0\n");
    }
    for _ in 0..4 {
        script.push_str("clock 0\nrun 0\n");
    }
    script.push_str("clock 0\n");
    script.into_bytes()
}
