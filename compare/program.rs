//! What the two programs share: a library is compared with the model, and the run fails where they differ or too little was tried.
//! Usage of each: [SEED [ROUNDS]]

use crate::inputs::RECORD;
use crate::run::{Kind, Run, CALLS};
use crate::surface::{Function, CLOCK_STATE, COUNTER_DIFFERS, DAMAGED, PORT_A, PORT_A_DIFFERS, PORT_B, PORT_B_DIFFERS, RIGHT};
use std::process::ExitCode;
use std::sync::atomic::Ordering;

const SEED: u64 = 0x0534_B012;
const ROUNDS: u64 = 2;
const MOST_ROUNDS: u64 = 100_000;

const HEADER: &str = include_str!("../include/oskorbine.h");

/// What a program is linked with, and what it must try of it.
pub struct Library {
    pub name: &'static str,
    pub functions: &'static [Function],
    pub kinds: &'static [&'static [Kind]],
    /// Fewer calls than this in a round are no comparison.
    pub least_calls: u64,
}

pub fn compare(library: Library) -> ExitCode {
    let Library { name, functions, kinds, least_calls } = library;
    let Some((seed, rounds)) = arguments(std::env::args().skip(1).collect()) else {
        eprintln!("usage: compare [SEED [ROUNDS]]   SEED: 64 bits, decimal or 0x and hex; ROUNDS: 1 to {MOST_ROUNDS}");
        return ExitCode::from(2);
    };
    if let Err(unlike) = header_is_as_declared() {
        eprintln!("compare: {unlike}");
        return ExitCode::FAILURE;
    }
    // A panic here is a fault of the model or of this program (an overflow, say): it needs its case too.
    let panics = std::panic::take_hook();
    std::panic::set_hook(Box::new(move |panic| {
        panics(panic);
        eprintln!("compare: {name}: stopped (seed {seed:#x}, case {})", CALLS.load(Ordering::Relaxed));
    }));

    let mut run = Run::new(seed);
    for _ in 0..rounds {
        for (kind, cases) in kinds.iter().copied().flatten() {
            run.tally.begin(kind);
            if let Err(difference) = cases(&mut run) {
                eprint!("compare: {name}: {difference}");
                return ExitCode::FAILURE;
            }
        }
    }
    run.tally.print();
    let calls = CALLS.load(Ordering::Relaxed);
    let mut seldom = run.tally.too_seldom(functions);
    let least_calls = rounds * least_calls;
    if calls < least_calls {
        seldom.push(format!("calls: {calls}, not {least_calls}"));
    }
    if !seldom.is_empty() {
        eprintln!("compare: {name}: tried too little (seed {seed:#x}):\n  {}", seldom.join("\n  "));
        return ExitCode::FAILURE;
    }
    println!("compare: {name}: {calls} calls, 0 differences (seed {seed:#x})");
    ExitCode::SUCCESS
}

fn arguments(given: Vec<String>) -> Option<(u64, u64)> {
    let seed = match given.first() {
        Some(text) => number(text)?,
        None => SEED,
    };
    let rounds = match given.get(1) {
        Some(text) => number(text)?,
        None => ROUNDS,
    };
    (given.len() <= 2 && (1..=MOST_ROUNDS).contains(&rounds)).then_some((seed, rounds))
}

/// Digits only: the parser of numbers would take a sign as well.
fn number(text: &str) -> Option<u64> {
    let (digits, radix) = match text.strip_prefix("0x") {
        Some(hex) => (hex, 16),
        None => (text, 10),
    };
    let all_digits = digits.chars().all(|digit| digit.is_digit(radix));
    if all_digits {
        u64::from_str_radix(digits, radix).ok()
    } else {
        None
    }
}

/// The header, one for both libraries, declares exactly the functions of surface.rs, and defines its numbers as they are written here.
fn header_is_as_declared() -> Result<(), String> {
    let declared: Vec<&str> =
        HEADER.lines().filter(|line| line.ends_with(");")).filter_map(|line| line.split('(').next()?.split(' ').next_back()).collect();
    let known = Function::ALL.map(|function| function.name());
    if declared != known {
        return Err(format!("include/oskorbine.h declares {declared:?}, and compare/surface.rs {known:?}"));
    }
    let defined = [
        format!("#define OSK_RECORD_SIZE {RECORD}"),
        format!("#define OSK_OUTPUT_ON {:#x}", model::OUTPUT_ON),
        format!("#define OSK_CLOCK_STATE {CLOCK_STATE}"),
        format!("enum {{ OSK_RIGHT = {RIGHT}, OSK_DAMAGED = {DAMAGED}, OSK_COUNTER_DIFFERS = {COUNTER_DIFFERS} }};"),
        format!("enum {{ OSK_PORT_A = {PORT_A}, OSK_PORT_B = {PORT_B} }};"),
        format!("enum {{ OSK_PORT_A_DIFFERS = {PORT_A_DIFFERS}, OSK_PORT_B_DIFFERS = {PORT_B_DIFFERS} }};"),
    ];
    match defined.iter().find(|&wanted| HEADER.lines().all(|line| line != wanted)) {
        Some(missing) => Err(format!("include/oskorbine.h has no line '{missing}'")),
        None => Ok(()),
    }
}
