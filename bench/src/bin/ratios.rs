//! Measures Faultsieve and the plain implementation on the same inputs, and prints how their times compare.
//!
//!     ratios [ROUNDS]
//!
//! Each case is first answered by both and compared, then timed in rounds in which both take turns.

use std::hint::black_box;
use std::process::ExitCode;
use std::time::Instant;

use bench::caller::dialogue;
use bench::draft::{Draft, hex};
use bench::random::Random;
use bench::shapes::{self, Heavy, LARGEST};
use faultsieve::LINE;

/// How long one side is timed in one round, roughly.
const NANOSECONDS: f64 = 20e6;

fn main() -> ExitCode {
    let Ok(rounds) = std::env::args().nth(1).map_or(Ok(15), |word| word.parse::<usize>()) else {
        eprintln!("usage: ratios [ROUNDS]");
        return ExitCode::from(2);
    };
    let rounds = rounds.max(1);
    println!("times in nanoseconds, each the best and the median of {rounds} rounds; ratio: faultsieve by plain\n");
    table("what one operation takes", "operation", rounds, all_cases());
    table("checks of books of growing length", "instruction of the book", rounds, growing_books());
    table("runs of growing weight", "instruction performed", rounds, growing_runs());
    ExitCode::SUCCESS
}

/// What both sides are asked to do.
enum Work {
    Check(Vec<u8>),
    Script(Vec<u8>),
}

struct Case {
    name: String,
    work: Work,
    /// How many operations the work consists of.
    operations: u64,
}

impl Case {
    fn check(name: impl Into<String>, draft: &Draft, operations: u64) -> Case {
        Case { name: name.into(), work: Work::Check(draft.bytes()), operations }
    }

    fn script(name: impl Into<String>, script: String, operations: u64) -> Case {
        Case { name: name.into(), work: Work::Script(script.into_bytes()), operations }
    }

    fn loads(name: &str, draft: &Draft) -> Case {
        let times = 200;
        Case::script(name, format!("load {}\n", hex(&draft.bytes())).repeat(times), times as u64)
    }

    /// Many runs under a meter, counted as runs or as the instructions that they perform.
    fn runs(name: String, meter: &str, heavy: &Heavy, by_instruction: bool) -> Case {
        let times = 40;
        let load = hex(&heavy.draft.bytes());
        let script = format!("meter {meter}\nload {load}\n{}clock 1\n", "run 0\n".repeat(times));
        let each = if by_instruction { heavy.performed } else { 1 };
        Case::script(name, script, times as u64 * each)
    }

    fn plain(&self) -> Vec<u8> {
        match &self.work {
            Work::Check(book) => plain::check_line(black_box(book)).into_bytes(),
            Work::Script(script) => plain::script(black_box(script)),
        }
    }

    fn faultsieve<'a>(&self, buffer: &'a mut [u8]) -> &'a [u8] {
        let answer = match &self.work {
            Work::Check(book) => faultsieve::check(black_box(book), buffer),
            Work::Script(script) => faultsieve::script(black_box(script), buffer),
        };
        answer.expect("the buffer is as long as the answer")
    }
}

const ONES: &str = "card 1 1 1 1 1 1 1 1 1 1 1 1";

fn all_cases() -> Vec<Case> {
    let run = |name: &str, meter, heavy| Case::runs(name.into(), meter, &heavy, false);
    let mixed = dialogue(&mut Random::new(2), 20_000).script;
    let lines = mixed.iter().filter(|&&byte| byte == b'\n').count() as u64;
    vec![
        Case::check("check, straight", &shapes::straight(LARGEST), 1),
        Case::check("check, nested", &shapes::nested(LARGEST), 1),
        Case::check("check, deep", &shapes::deep(LARGEST), 1),
        Case::loads("load, straight", &shapes::straight(LARGEST)),
        Case::loads("load, nested", &shapes::nested(LARGEST)),
        Case::loads("load, deep", &shapes::deep(LARGEST)),
        run("run, arithmetic, card", ONES, shapes::arithmetic(1_000)),
        run("run, arithmetic, digit", "digit", shapes::arithmetic(1_000)),
        run("run, products, card", ONES, shapes::products(1_000)),
        run("run, products, digit", "digit", shapes::products(1_000)),
        run("run, loops, card", ONES, shapes::loops()),
        run("run, branches, card", ONES, shapes::branches()),
        small_calls(),
        Case { name: "mixed calls".into(), work: Work::Script(mixed), operations: lines },
    ]
}

/// All calls but load, on an event that does nothing.
fn small_calls() -> Case {
    let figures = shapes::straight(LARGEST).figures;
    let book = Draft { clock_level: 0, figures, code: vec![(bench::draft::STOP, 0)] };
    let mut script = format!("load {}\n", hex(&book.bytes()));
    let mut calls = 0;
    for number in 1..=2_000 {
        let word = if number % 2 == 0 { "carry" } else { "withdraw" };
        let amount = 7_919 * number - 8_000_000;
        script += &format!("put 1 {amount}\nrun 0\nopen 1 1 2\nshow 1 2\nclock 0\n{word} 1 1 2 {number}\ntally\n");
        calls += 7;
    }
    Case::script("small calls", script, calls)
}

/// Makes a book of so many instructions.
type Shape = fn(usize) -> Draft;

fn growing_books() -> Vec<Case> {
    let shapes: [(&str, Shape); 3] =
        [("straight", shapes::straight), ("nested", shapes::nested), ("deep", shapes::deep)];
    let sizes = |(name, shape): (&'static str, Shape)| {
        [64, 128, 256].map(|size| Case::check(format!("check, {name}, {size}"), &shape(size), size as u64))
    };
    shapes.into_iter().flat_map(sizes).collect()
}

fn growing_runs() -> Vec<Case> {
    let run = |count, meter: (&'static str, &'static str)| {
        let heavy = shapes::arithmetic(count);
        Case::runs(format!("run, {}, weight {}", meter.0, heavy.performed), meter.1, &heavy, true)
    };
    let counts = [101, 505, 1_000];
    [("card", ONES), ("digit", "digit")].into_iter().flat_map(|meter| counts.map(|count| run(count, meter))).collect()
}

/// The best and the median of some times.
struct Times {
    best: f64,
    median: f64,
}

impl Times {
    fn of(mut times: Vec<f64>) -> Times {
        times.sort_by(f64::total_cmp);
        Times { best: times[0], median: times[times.len() / 2] }
    }
}

fn table(title: &str, unit: &str, rounds: usize, cases: Vec<Case>) {
    println!("{title}, per {unit}:");
    println!("{:<28} {:>21} {:>21} {:>15}", "", "plain", "faultsieve", "ratio");
    println!("{0:<28} {1:>10} {2:>10} {1:>10} {2:>10} {1:>7} {2:>7}", "case", "best", "median");
    for case in cases {
        let (plain, faultsieve) = measure(&case, rounds);
        println!(
            "{:<28} {:>10.1} {:>10.1} {:>10.1} {:>10.1} {:>7.2} {:>7.2}",
            case.name,
            plain.best,
            plain.median,
            faultsieve.best,
            faultsieve.median,
            faultsieve.best / plain.best,
            faultsieve.median / plain.median
        );
    }
    println!();
}

/// Times both sides in rounds; the one that begins changes from round to round.
fn measure(case: &Case, rounds: usize) -> (Times, Times) {
    let expected = case.plain();
    let mut buffer = vec![0; expected.len().max(LINE)];
    assert!(case.faultsieve(&mut buffer) == expected, "{}: the answers differ", case.name);

    let mut plain = || drop(black_box(case.plain()));
    let mut faultsieve = || {
        black_box(case.faultsieve(&mut buffer));
    };
    let plain_times = times_for(&mut plain);
    let faultsieve_times = times_for(&mut faultsieve);
    let (mut plain_rounds, mut faultsieve_rounds) = (Vec::new(), Vec::new());
    for round in 0..rounds {
        if round % 2 == 0 {
            plain_rounds.push(time(&mut plain, plain_times, case.operations));
        }
        faultsieve_rounds.push(time(&mut faultsieve, faultsieve_times, case.operations));
        if round % 2 == 1 {
            plain_rounds.push(time(&mut plain, plain_times, case.operations));
        }
    }
    (Times::of(plain_rounds), Times::of(faultsieve_rounds))
}

/// How often some work is to be done in one round.
fn times_for(work: &mut dyn FnMut()) -> u64 {
    let once = time(work, 1, 1).min(time(work, 1, 1));
    (NANOSECONDS / once.max(1.0)).clamp(1.0, 1e6) as u64
}

/// The nanoseconds that one operation of some work takes.
fn time(work: &mut dyn FnMut(), times: u64, operations: u64) -> f64 {
    let start = Instant::now();
    for _ in 0..times {
        work();
    }
    start.elapsed().as_nanos() as f64 / (times * operations) as f64
}
