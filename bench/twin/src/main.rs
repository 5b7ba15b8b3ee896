//! The engine against its twin: first the same answers, then the time.

mod inputs;

use inputs::Input;
use std::hint::black_box;
use std::process::ExitCode;
use std::time::Instant;
use twin::solve::{CHOICES, VALUES};
use twin::{Capped, Points, Problem, Ranked, Refusal, Report, Scale, Weakest, bounded_solve, straight_solve};

/// As crates/ffi has it.
#[repr(C)]
#[derive(Clone, Debug, Default, PartialEq, Eq)]
struct Figures {
    plan: Plan,
    kept: [u64; 4],
    share: u64,
    kept_count: u32,
    tree: [i32; 2],
    score: [i32; 2],
    removed: [i32; 2],
    ceiling: [i32; 2],
}

#[repr(transparent)]
#[derive(Clone, Debug, PartialEq, Eq)]
struct Plan([u8; 64]);

impl Default for Plan {
    fn default() -> Plan {
        Plan([0; 64])
    }
}

/// A slice crosses as a pointer and a length.
mod foreign {
    use super::Figures;

    unsafe extern "C" {
        pub fn engine_read(code: u16, bytes: *const u8, length: usize, times: u32) -> u64;
        pub fn engine_write(code: u16, bytes: *const u8, length: usize, times: u32, out: *mut u8, room: usize) -> u64;
        pub fn engine_solve(
            code: u16,
            bytes: *const u8,
            length: usize,
            times: u32,
            choices: *mut u16,
            choices_length: usize,
            shown: *mut i32,
            shown_length: usize,
            place: *mut Figures,
        ) -> u64;
    }
}

/// What the engine's functions are asked with and what they leave.
#[derive(Clone, Debug, PartialEq, Eq)]
struct Stores {
    choices: Vec<u16>,
    shown: Vec<i32>,
    figures: Figures,
}

impl Stores {
    fn new() -> Stores {
        Stores { choices: vec![7; CHOICES], shown: vec![7; 2 * VALUES], figures: Figures::default() }
    }
}

fn engine_read(code: u16, bytes: &[u8], times: u32) -> u64 {
    // SAFETY: the bytes are lent for the call.
    unsafe { foreign::engine_read(code, bytes.as_ptr(), bytes.len(), times) }
}

fn engine_write(code: u16, bytes: &[u8], times: u32, out: &mut [u8]) -> u64 {
    // SAFETY: both are lent for the call.
    unsafe { foreign::engine_write(code, bytes.as_ptr(), bytes.len(), times, out.as_mut_ptr(), out.len()) }
}

fn engine_solve(code: u16, bytes: &[u8], times: u32, stores: &mut Stores) -> u64 {
    let Stores { choices, shown, figures } = stores;
    // SAFETY: all are lent for the call.
    unsafe {
        foreign::engine_solve(
            code,
            bytes.as_ptr(),
            bytes.len(),
            times,
            choices.as_mut_ptr(),
            choices.len(),
            shown.as_mut_ptr(),
            shown.len(),
            figures,
        )
    }
}

fn told(refusal: Refusal) -> u64 {
    (refusal.number as u64) << 32 | refusal.place as u64
}

fn read<V: Scale>(bytes: &[u8], times: u32) -> u64 {
    let mut problem = Problem::<V>::empty();
    for _ in 0..times {
        if let Err(refusal) = black_box(&mut problem).read(black_box(bytes)) {
            return told(refusal);
        }
    }
    0
}

fn write<V: Scale>(bytes: &[u8], times: u32, out: &mut [u8]) -> u64 {
    let mut problem = Problem::<V>::empty();
    if let Err(refusal) = problem.read(bytes) {
        return told(refusal);
    }
    let mut written = 0;
    for _ in 0..times {
        match black_box(&problem).write(black_box(out)) {
            Ok(length) => written = length as u64,
            Err(refusal) => return told(refusal),
        }
    }
    written
}

type Solve<V> = fn(&Problem<V>, &mut [V], &mut [u16], &mut Report<V>) -> Result<(), u16>;

fn solve<V: Scale>(solve: Solve<V>, bytes: &[u8], times: u32, stores: &mut Stores) -> u64 {
    let mut problem = Problem::<V>::empty();
    if let Err(refusal) = problem.read(bytes) {
        return told(refusal);
    }
    let mut values = vec![V::NEUTRAL; VALUES];
    let mut report = Report::blank();
    for _ in 0..times {
        if let Err(number) = solve(black_box(&problem), black_box(&mut values), &mut stores.choices, &mut report) {
            return (number as u64) << 32;
        }
    }
    for (pair, value) in stores.shown.chunks_exact_mut(2).zip(&values) {
        (pair[0], pair[1]) = value.show();
    }
    let pair = |value: V| {
        let (first, second) = value.show();
        [first, second]
    };
    stores.figures = Figures {
        plan: Plan(report.plan),
        kept: report.kept,
        share: report.share,
        kept_count: report.kept_count,
        tree: pair(report.tree),
        score: pair(report.score),
        removed: pair(report.removed),
        ceiling: pair(report.ceiling),
    };
    0
}

fn twin_read(code: u16, bytes: &[u8], times: u32) -> u64 {
    match code {
        1 => read::<Points>(bytes, times),
        2 => read::<Capped>(bytes, times),
        3 => read::<Ranked>(bytes, times),
        _ => read::<Weakest>(bytes, times),
    }
}

fn twin_write(code: u16, bytes: &[u8], times: u32, out: &mut [u8]) -> u64 {
    match code {
        1 => write::<Points>(bytes, times, out),
        2 => write::<Capped>(bytes, times, out),
        3 => write::<Ranked>(bytes, times, out),
        _ => write::<Weakest>(bytes, times, out),
    }
}

fn twin_solve(code: u16, bytes: &[u8], times: u32, stores: &mut Stores) -> u64 {
    match code {
        1 => solve::<Points>(bounded_solve, bytes, times, stores),
        2 => solve::<Capped>(bounded_solve, bytes, times, stores),
        3 => solve::<Ranked>(bounded_solve, bytes, times, stores),
        _ => solve::<Weakest>(straight_solve, bytes, times, stores),
    }
}

/// Whether both give the same figures, stores, refusals and files.
fn agree(code: u16, bytes: &[u8]) -> bool {
    let (mut one, mut other) = (Stores::new(), Stores::new());
    let read = engine_read(code, bytes, 1) == twin_read(code, bytes, 1);
    let solved = engine_solve(code, bytes, 1, &mut one) == twin_solve(code, bytes, 1, &mut other);
    let (mut out, mut copy) = (vec![7; 16_784], vec![7; 16_784]);
    let written = engine_write(code, bytes, 1, &mut out) == twin_write(code, bytes, 1, &mut copy);
    read && solved && written && one == other && out == copy
}

/// Compares all inputs and many random ones; answers how many differ.
fn check() -> usize {
    let mut differ = 0;
    let mut compared = 0;
    let mut solved = 0;
    for Input { name, code, bytes, .. } in inputs::kinds().iter().chain(&inputs::growing()) {
        compared += 1;
        if !agree(*code, bytes) || twin_solve(*code, bytes, 1, &mut Stores::new()) != 0 {
            println!("{name} in scale {code} differs");
            differ += 1;
        }
    }
    for code in 1..=4 {
        for seed in 0..5000 {
            for bytes in [inputs::random(code, seed), inputs::broken(code, seed)] {
                compared += 1;
                solved += usize::from(twin_solve(code, &bytes, 1, &mut Stores::new()) == 0);
                if !agree(code, &bytes) {
                    println!("random problem {seed} in scale {code} differs");
                    differ += 1;
                }
            }
        }
    }
    println!("{compared} problems compared, {solved} of the random ones solved, {differ} differ");
    differ
}

fn seconds(work: impl FnOnce()) -> f64 {
    let start = Instant::now();
    work();
    start.elapsed().as_secs_f64()
}

fn median(mut times: Vec<f64>) -> f64 {
    times.sort_by(f64::total_cmp);
    times[times.len() / 2]
}

const ROUNDS: usize = 61;

/// What a race shows: medians of microseconds for one run of each, and of the ratio in one turn.
struct Shown {
    engine: f64,
    twin: f64,
    ratio: f64,
}

/// The two take turns. Each sample is the time of many runs in one call, less that of one.
fn race(mut engine: impl FnMut(u32), mut twin: impl FnMut(u32)) -> Shown {
    let once = |work: &mut dyn FnMut(u32), times: u32| {
        let one = seconds(|| work(1));
        let more = seconds(|| work(1 + times));
        (more - one).max(0.0) / times as f64 * 1e6
    };
    // So many runs that a sample takes about two milliseconds.
    let count = |work: &mut dyn FnMut(u32)| {
        let rough = (0..5).map(|_| once(work, 50)).fold(f64::MAX, f64::min);
        (2000.0 / rough.max(0.05)).clamp(4.0, 20_000.0) as u32
    };
    let (engine_times, twin_times) = (count(&mut engine), count(&mut twin));
    let (mut one, mut other) = (Vec::new(), Vec::new());
    for round in 0..ROUNDS {
        if round % 2 == 0 {
            one.push(once(&mut engine, engine_times));
            other.push(once(&mut twin, twin_times));
        } else {
            other.push(once(&mut twin, twin_times));
            one.push(once(&mut engine, engine_times));
        }
    }
    let ratios = one.iter().zip(&other).map(|(engine, twin)| engine / twin.max(1e-6)).collect();
    Shown { engine: median(one), twin: median(other), ratio: median(ratios) }
}

fn race_solve(Input { code, bytes, .. }: &Input) -> Shown {
    let (mut one, mut other) = (Stores::new(), Stores::new());
    race(
        |times| assert_eq!(engine_solve(*code, bytes, times, &mut one), 0),
        |times| assert_eq!(twin_solve(*code, bytes, times, &mut other), 0),
    )
}

fn race_read(Input { code, bytes, .. }: &Input) -> Shown {
    race(|times| assert_eq!(engine_read(*code, bytes, times), 0), |times| assert_eq!(twin_read(*code, bytes, times), 0))
}

fn race_write(Input { code, bytes, .. }: &Input) -> Shown {
    let (mut one, mut other) = (vec![0; 16_784], vec![0; 16_784]);
    race(
        |times| assert_eq!(engine_write(*code, bytes, times, &mut one), bytes.len() as u64),
        |times| assert_eq!(twin_write(*code, bytes, times, &mut other), bytes.len() as u64),
    )
}

fn row(input: &Input, Shown { engine, twin, ratio }: Shown) {
    let Input { name, code, entries, .. } = input;
    println!("| {name} | {code} | {entries} | {engine:.2} | {twin:.2} | {ratio:.1} | {:.1} |", 1000.0 * engine / *entries as f64);
}

fn table(title: &str, inputs: &[Input], race: impl Fn(&Input) -> Shown) {
    println!("\n{title}\n");
    println!("| problem | scale | entries | engine µs | twin µs | ratio | engine ns an entry |");
    println!("|---|---|---|---|---|---|---|");
    for input in inputs {
        row(input, race(input));
    }
}

fn time() {
    let kinds = inputs::kinds();
    table("Solving", &kinds, race_solve);
    table("Solving, as entries double", &inputs::growing(), race_solve);
    table("Reading a file", &kinds, race_read);
    table("Writing a file", &kinds, race_write);
}

/// One kind of work alone, for tools that count instructions.
fn run(words: &[String]) -> Option<()> {
    let [side, work, name, code, times] = words else { return None };
    let (code, times) = (code.parse().ok()?, times.parse().ok()?);
    let kinds = inputs::kinds();
    let Input { bytes, .. } = kinds.iter().find(|input| input.name == *name && input.code == code)?;
    let mut out = vec![0; 16_784];
    let mut stores = Stores::new();
    let answer = match (side.as_str(), work.as_str()) {
        ("engine", "solve") => engine_solve(code, bytes, times, &mut stores),
        ("twin", "solve") => twin_solve(code, bytes, times, &mut stores),
        ("engine", "read") => engine_read(code, bytes, times),
        ("twin", "read") => twin_read(code, bytes, times),
        ("engine", "write") => engine_write(code, bytes, times, &mut out),
        ("twin", "write") => twin_write(code, bytes, times, &mut out),
        _ => return None,
    };
    println!("{answer}");
    Some(())
}

fn main() -> ExitCode {
    let words: Vec<String> = std::env::args().skip(1).collect();
    match words.first().map(String::as_str) {
        Some("check") => ExitCode::from(u8::from(check() > 0)),
        Some("time") => {
            time();
            ExitCode::SUCCESS
        }
        Some("run") if run(&words[1..]).is_some() => ExitCode::SUCCESS,
        _ => {
            eprintln!("usage: compare check | time | run engine|twin solve|read|write PROBLEM SCALE TIMES");
            ExitCode::from(2)
        }
    }
}
